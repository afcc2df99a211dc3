# A shop whose pages are tagged, with carts and logins in cookies, as such a site is run behind Varnish 7.
vcl 4.1;

import std;
import xkey;

backend default {
  .host = "localhost";
  .port = "8080";
  .first_byte_timeout = 600s;
  .probe = {
    .url = "/health_check.php";
    .timeout = 2s;
    .interval = 5s;
    .window = 10;
    .threshold = 5;
  }
}

acl purge {
  "localhost";
}

sub vcl_recv {
  if (req.restarts > 0) {
    set req.hash_always_miss = true;
  }
  set req.url = regsub(req.url, "^http[s]?://", "");
  set req.url = std.querysort(req.url);

  if (req.method == "PURGE") {
    if (client.ip !~ purge) {
      return (synth(405, "Method not allowed"));
    }
    if (!req.http.X-Tags-Pattern && !req.http.X-Pool) {
      return (synth(400, "X-Tags-Pattern or X-Pool header required"));
    }
    if (req.http.X-Tags-Pattern) {
      ban("obj.http.X-Tags ~ " + req.http.X-Tags-Pattern);
    }
    return (synth(200, "Purged"));
  }
  if (req.method != "GET" && req.method != "HEAD" && req.method != "PUT" && req.method != "POST"
      && req.method != "TRACE" && req.method != "OPTIONS" && req.method != "DELETE") {
    return (pipe);
  }
  if (req.method != "GET" && req.method != "HEAD") {
    return (pass);
  }
  if (req.url ~ "/(catalogsearch|checkout|customer|graphql/mutation)") {
    return (pass);
  }
  if (std.healthy(req.backend_hint)) {
    set req.grace = 300s;
  } else {
    set req.grace = 3d;
  }
  std.collect(req.http.Cookie);
  if (req.http.cookie ~ "wp_woo_session=|frontend_login=1") {
    return (pass);
  }
  unset req.http.Cookie;
  return (hash);
}

sub vcl_hash {
  if (req.http.X-Forwarded-Proto) {
    hash_data(req.http.X-Forwarded-Proto);
  }
  if (req.http.cookie ~ "X-Vary=") {
    hash_data(regsub(req.http.cookie, "^.*?X-Vary=([^;]+);*.*$", "\1"));
  }
}

sub vcl_backend_response {
  set beresp.grace = 3d;
  if (beresp.http.content-type ~ "text") {
    set beresp.do_esi = true;
  }
  if (bereq.url ~ "\.js$" || beresp.http.content-type ~ "text") {
    set beresp.do_gzip = true;
  }
  if (beresp.status != 200 && beresp.status != 404 && beresp.http.Cache-Control ~ "private") {
    set beresp.uncacheable = true;
    set beresp.ttl = 86400s;
    return (deliver);
  }
  if (beresp.ttl > 0s && (bereq.method == "GET" || bereq.method == "HEAD")) {
    unset beresp.http.set-cookie;
  }
}

sub vcl_deliver {
  if (resp.http.X-Debug) {
    set resp.http.X-Cache-Hits = obj.hits;
  } else {
    unset resp.http.Age;
  }
  unset resp.http.X-Tags;
  unset resp.http.Server;
  unset resp.http.Via;
}

sub vcl_hit {
  if (obj.ttl >= 0s) {
    return (deliver);
  }
  if (std.healthy(req.backend_hint)) {
    if (obj.ttl + 300s > 0s) {
      return (deliver);
    }
    return (restart);
  }
  return (deliver);
}
