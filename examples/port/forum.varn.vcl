# examples/port/forum.vcl, as it is written here.
vcl 4.0;

import std;

backend default {
  .host = "127.0.0.1";
  .port = "3000";
}

sub vcl_recv {
  call normalise;
  if (req.http.Cookie ~ "(_t|_forum_session|phpbb3_[a-z0-9]+_sid)=") {
    return (pass);
  }
  if (req.url ~ "^/(message-bus|srv/status|session|admin)") {
    return (pass);
  }
  if (req.url ~ "^/t/[^ \t]+/[0-9]+") {
    set req.http.X-Topic = regsub(req.url, "^/t/[^/]+/(\d+).*$", "\1");
  }
  unset req.http.Cookie;
}

sub normalise {
  if (req.http.Host) {
    set req.http.Host = std.tolower(req.http.Host);
  }
  if (req.url ~ "#") {
    set req.url = regsub(req.url, "#.*$", "");
  }
  if (req.url ~ "\?$") {
    set req.url = regsub(req.url, "\?$", "");
  }
}

sub vcl_backend_response {
  if (bereq.http.X-Topic) {
    set beresp.http.X-Topic = bereq.http.X-Topic;
    set beresp.ttl = 1m;
  }
  set beresp.keep = 1h;
}

sub vcl_deliver {
  if (std.integer(resp.http.X-Topic, 0) > 0) {
    set resp.http.X-Topic-Cached = obj.hits;
  }
}
