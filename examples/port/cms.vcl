# A content management system that purges by tags, as such a site is run behind Varnish 7.
vcl 4.1;

import std;
import purge;

backend default {
  .host = "127.0.0.1";
  .port = "8080";
}

acl purgers {
  "127.0.0.1";
  "localhost";
  "web1.internal";
}

sub vcl_recv {
  if (req.method == "PURGE") {
    if (!client.ip ~ purgers) {
      return (synth(405));
    }
    return (hash);
  }
  if (req.method == "BAN") {
    if (!client.ip ~ purgers) {
      return (synth(403, "Not allowed."));
    }
    if (req.http.Cache-Tags) {
      ban("obj.http.Cache-Tags ~ " + req.http.Cache-Tags);
    } else {
      return (synth(403, "Cache-Tags header missing."));
    }
    return (synth(200, "Ban added."));
  }
  if (req.url ~ "^/(status|update|install|cron)\.php(\?|$)" && client.ip == "127.0.0.1") {
    return (pass);
  }
  if (req.url ~ "(?i)\.(css|js|png|gif|jpe?g|ico|svg|woff2?)(\?[a-z0-9]++)?$") {
    unset req.http.Cookie;
  }
  if (req.http.Cookie) {
    set req.http.Cookie = ";" + req.http.Cookie;
    set req.http.Cookie = regsuball(req.http.Cookie, "; +", ";");
    set req.http.Cookie = regsuball(req.http.Cookie, ";(SESS[a-z0-9]+|SSESS[a-z0-9]+|NO_CACHE)=", "; \1=");
    set req.http.Cookie = regsuball(req.http.Cookie, ";[^ ][^;]*", "");
    set req.http.Cookie = regsuball(req.http.Cookie, "^[; ]+|[; ]+$", "");
    if (req.http.Cookie == "") {
      unset req.http.Cookie;
    } else {
      return (pass);
    }
  }
}

sub vcl_hit {
  if (req.method == "PURGE") {
    set req.http.n-gone = purge.soft(0s, 1h);
    return (synth(200, "Purged"));
  }
}

sub vcl_miss {
  if (req.method == "PURGE") {
    return (synth(404, "Not in cache"));
  }
}

sub vcl_backend_response {
  if (beresp.status == 404) {
    set beresp.ttl = 10s;
  }
  set beresp.grace = 6h;
}

sub vcl_deliver {
  unset resp.http.Cache-Tags;
}
