# What follows the words of the subroutines, restarts, retries, purges and bans.
vcl 4.1;

import directors;

backend default {
  .host = "127.0.0.1";
  .port = "8080";
}

backend dead {
  .host = "127.0.0.1";
  .port = "9";
}

sub vcl_init {
  new both = directors.round_robin();
  both.add_backend(dead);
  both.add_backend(default);
}

sub vcl_recv {
  if (req.method == "PURGE") {
    return (purge);
  }
  if (req.method == "BAN") {
    ban(req.http.X-Ban);
    return (synth(200, "Banned"));
  }
  if (req.url ~ "^/always-miss") {
    set req.hash_always_miss = true;
  }
  if (req.url ~ "^/turns") {
    set req.backend_hint = both.backend();
  }
  if (req.url ~ "^/no-vary") {
    set req.hash_ignore_vary = true;
  }
  if (req.url ~ "^/old") {
    set req.ttl = 0s;
  }
  if (req.url ~ "^/called") {
    call another;
  }
  if (req.url ~ "^/cookie" || req.url ~ "^/body") {
    return (hash);
  }
}

sub another {
  return (synth(701, "called"));
}

sub vcl_hash {
  if (req.url ~ "^/one-key") {
    hash_data("same");
    return (lookup);
  }
}

sub vcl_purge {
  if (req.url ~ "^/purge-and-get") {
    set req.method = "GET";
    return (restart);
  }
}

sub vcl_hit {
  if (req.url ~ "^/hit-pass") {
    return (pass);
  }
  if (req.url ~ "^/hit-synth") {
    return (synth(702, "hit"));
  }
}

sub vcl_miss {
  if (req.url ~ "^/miss-pass") {
    return (pass);
  }
}

sub vcl_backend_fetch {
  if (bereq.url ~ "^/error-before") {
    return (error(703, "before"));
  }
  if (bereq.url ~ "^/abandon-before") {
    return (abandon);
  }
  if (bereq.url ~ "^/rewritten") {
    set bereq.url = "/other";
  }
  if (bereq.retries > 0) {
    set bereq.backend = default;
  }
}

sub vcl_backend_response {
  if (bereq.url ~ "^/hit-for-pass") {
    return (pass(60s));
  }
  if (bereq.url ~ "^/hit-for-miss") {
    set beresp.uncacheable = true;
    set beresp.ttl = 60s;
    return (deliver);
  }
  if (bereq.url ~ "^/error-behind") {
    return (error(704, "behind"));
  }
  if (bereq.url ~ "^/abandon-behind") {
    return (abandon);
  }
  if ((bereq.url ~ "^/twice-more" && bereq.retries < 2) || bereq.url ~ "^/too-often") {
    return (retry);
  }
  if (bereq.url ~ "^/with-cookie") {
    set beresp.ttl = 1h;
    set beresp.http.Set-Cookie = "x=1";
    return (deliver);
  }
  if (bereq.url ~ "^/below-zero") {
    set beresp.ttl = -5s;
    set beresp.http.X-Kept = beresp.ttl;
  }
  if (bereq.url ~ "^/now-404") {
    set beresp.status = 404;
  }
  set beresp.http.X-From = beresp.backend + " " + bereq.retries;
}

sub vcl_backend_error {
  if (bereq.url ~ "^/turns" && bereq.retries < 1) {
    return (retry);
  }
  set beresp.http.X-Error = bereq.retries + " " + beresp.status + " " + beresp.reason;
}

sub vcl_deliver {
  set resp.http.X-Object = obj.hits + " " + obj.uncacheable + " " + req.is_hitmiss + " " + req.is_hitpass + " " + req.restarts;
  if (req.url ~ "^/deliver-synth") {
    return (synth(705, "deliver"));
  }
  if (req.url ~ "^/deliver-restart" && req.restarts == 0) {
    return (restart);
  }
  if (req.url ~ "^/teapot") {
    set resp.status = 418;
  }
  if (req.url ~ "^/gone-404") {
    set resp.status = 404;
  }
}

sub vcl_synth {
  if (req.url ~ "^/synth-restart" && req.restarts == 0) {
    return (restart);
  }
}
