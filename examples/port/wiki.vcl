# A wiki that purges its pages itself, as such a site is run behind Varnish 7.
vcl 4.1;

import std;

backend default {
  .host = "127.0.0.1";
  .port = "8080";
  .first_byte_timeout = 120s;
  .connect_timeout = 30s;
}

acl purge {
  "127.0.0.1";
  "192.168.0.0"/24;
}

sub vcl_recv {
  set req.http.X-Forwarded-For = client.ip;
  set req.backend_hint = default;

  if (req.method == "PURGE") {
    if (!client.ip ~ purge) {
      return (synth(405, "Not allowed."));
    }
    return (purge);
  }
  if (req.http.Authorization || req.http.Cookie ~ "([sS]ession|Token)=") {
    return (pass);
  }
  if (req.http.Accept-Encoding) {
    if (req.http.User-Agent ~ "MSIE 6") {
      unset req.http.Accept-Encoding;
    } elsif (req.http.Accept-Encoding ~ "gzip") {
      set req.http.Accept-Encoding = "gzip";
    } else {
      unset req.http.Accept-Encoding;
    }
  }
  if (req.method != "GET" && req.method != "HEAD") {
    return (pass);
  }
  unset req.http.Cookie;
  return (hash);
}

sub vcl_pipe {
  set bereq.http.Connection = "close";
}

sub vcl_hash {
  hash_data(req.url);
  if (req.http.Host) {
    hash_data(req.http.Host);
  }
  return (lookup);
}

sub vcl_hit {
  if (!obj.ttl > 0s) {
    return (pass);
  }
}

sub vcl_backend_response {
  set beresp.grace = 120s;
  if (beresp.ttl < 48h) {
    set beresp.ttl = 48h;
  }
  if (beresp.http.Set-Cookie || beresp.http.Authorization) {
    set beresp.uncacheable = true;
    return (deliver);
  }
  return (deliver);
}

sub vcl_deliver {
  if (!req.url ~ "^/index\.php\?title=Special:(?!Search)") {
    set resp.http.Cache-Control = "s-maxage=0, must-revalidate, max-age=0";
  }
  std.log("wiki: " + req.url + " " + resp.status);
}
