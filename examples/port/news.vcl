# A news site whose pages are put together of parts by ESI, as such a site is run behind Varnish 7.
vcl 4.1;

import std;
import directors;

probe front_probe {
  .request =
    "GET /alive HTTP/1.1"
    "Host: www.example.com"
    "Connection: close";
  .interval = 2s;
  .timeout = 1s;
  .window = 8;
  .threshold = 6;
}

backend front1 {
  .host = "10.0.0.11";
  .port = "80";
  .probe = front_probe;
}

backend front2 {
  .host = "10.0.0.12";
  .port = "80";
  .probe = front_probe;
}

sub vcl_init {
  new fronts = directors.round_robin();
  fronts.add_backend(front1);
  fronts.add_backend(front2);
}

sub vcl_recv {
  set req.backend_hint = fronts.backend();
  if (req.esi_level == 0) {
    set req.http.Surrogate-Capability = "key=ESI/1.0";
  } else {
    set req.http.X-Part-Of = req_top.url;
  }
  if (req.url ~ "^/live/") {
    set req.http.X-Live = now;
    return (pass);
  }
  if (std.port(server.ip) == 443) {
    set req.http.X-Forwarded-Proto = "https";
  }
  unset req.http.Cookie;
}

sub vcl_backend_response {
  if (beresp.http.Surrogate-Control ~ "ESI/1.0") {
    unset beresp.http.Surrogate-Control;
    set beresp.do_esi = true;
  }
  if (bereq.url ~ "^/breaking") {
    set beresp.ttl = 5s;
    set beresp.grace = 30s;
  } else {
    set beresp.ttl = 60s * 2;
    set beresp.grace = 12h;
  }
  if (beresp.status == 500 || beresp.status == 502 || beresp.status == 503) {
    if (bereq.is_bgfetch) {
      return (abandon);
    }
    set beresp.ttl = 1s;
    return (deliver);
  }
}

sub vcl_backend_error {
  if (bereq.retries < 2) {
    return (retry);
  }
  set beresp.http.Content-Type = "text/html; charset=utf-8";
  synthetic(std.fileread("/etc/varnish/error.html"));
  return (deliver);
}

sub vcl_deliver {
  set resp.http.X-Served-By = server.hostname;
  set resp.http.X-Hits = obj.hits;
}
