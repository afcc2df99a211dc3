# examples/port/news.vcl, as it is written here.
vcl 4.1;

import directors;

backend front1 {
  .host = "10.0.0.11";
  .port = "80";
}

backend front2 {
  .host = "10.0.0.12";
  .port = "80";
}

sub vcl_init {
  new fronts = directors.round_robin();
  fronts.add_backend(front1);
  fronts.add_backend(front2);
}

sub vcl_recv {
  set req.backend_hint = fronts.backend();
  if (req.url ~ "^/live/") {
    return (pass);
  }
  unset req.http.Cookie;
}

sub vcl_backend_response {
  if (bereq.url ~ "^/breaking") {
    set beresp.ttl = 5s;
    set beresp.grace = 30s;
  } else {
    set beresp.ttl = 120s;
    set beresp.grace = 12h;
  }
  if (beresp.status == 500 || beresp.status == 502 || beresp.status == 503) {
    if (bereq.is_bgfetch) {
      return (abandon);
    }
    set beresp.ttl = 1s;
    return (deliver);
  }
}

sub vcl_backend_error {
  if (bereq.retries < 2) {
    return (retry);
  }
  set beresp.http.Content-Type = "text/html; charset=utf-8";
  synthetic({"<!doctype html><title>Please come again</title>"});
  return (deliver);
}

sub vcl_deliver {
  set resp.http.X-Served-By = "cache1";
  set resp.http.X-Hits = obj.hits;
}
