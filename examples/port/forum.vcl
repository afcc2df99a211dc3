# A forum with guests and members, as such a site is run behind Varnish 7.
vcl 4.0;

import std;

include "backends.vcl";

sub vcl_recv {
  call normalise;
  if (req.http.Cookie ~ "(_t|_forum_session|phpbb3_[a-z0-9]+_sid)=") {
    return (pass);
  }
  if (req.url ~ "^/(message-bus|srv/status|session|admin)") {
    return (pipe);
  }
  if (req.url ~ "^/t/\H+/\d+") {
    set req.http.X-Topic = regsub(req.url, "^/t/[^/]+/(\d+).*$", "\1");
  }
  unset req.http.Cookie;
}

sub normalise {
  if (!req.http.Host) {
    return;
  }
  set req.http.Host = std.tolower(req.http.Host);
  if (req.url ~ "#") {
    set req.url = regsub(req.url, "#.*$", "");
  }
  if (req.url ~ "\?$") {
    set req.url = regsub(req.url, "\?$", "");
  }
}

sub vcl_pipe {
  if (req.http.upgrade) {
    set bereq.http.upgrade = req.http.upgrade;
    set bereq.http.connection = req.http.connection;
  }
  return (pipe);
}

sub vcl_backend_response {
  if (bereq.http.X-Topic) {
    set beresp.http.X-Topic = bereq.http.X-Topic;
    set beresp.ttl = 1m;
  }
  set beresp.keep = 1h;
}

sub vcl_deliver {
  if (std.integer(resp.http.X-Topic, 0) > 0) {
    set resp.http.X-Topic-Cached = obj.hits;
  }
  set resp.http.X-Age-Real = std.time2integer(now, 0);
}
