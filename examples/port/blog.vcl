# A blog whose readers have no login and whose writers have one, as such a site is run behind Varnish 7.
vcl 4.1;

import std;
import cookie;

backend default {
  .host = "127.0.0.1";
  .port = "8080";
  .connect_timeout = 5s;
  .first_byte_timeout = 300s;
  .between_bytes_timeout = 5s;
}

acl purgers {
  "localhost";
  "127.0.0.1";
  "::1";
}

sub vcl_recv {
  set req.http.Host = regsub(req.http.Host, ":[0-9]+$", "");
  unset req.http.Proxy;
  set req.url = std.querysort(req.url);

  if (req.method == "PURGE") {
    if (!client.ip ~ purgers) {
      return (synth(405, "Purging isn't for you"));
    }
    if (req.http.X-Purge-Method == "regex") {
      std.ban("obj.http.x-url ~ " + req.url + " && obj.http.x-host == " + req.http.Host);
      return (synth(200, "Banned"));
    }
    return (purge);
  }
  if (req.http.Upgrade ~ "(?i)websocket") {
    return (pipe);
  }
  if (req.method != "GET" && req.method != "HEAD") {
    return (pass);
  }
  if (req.url ~ "/wp-(login|admin|cron)" || req.url ~ "(\?|&)preview=true") {
    return (pass);
  }
  if (req.url ~ "(\?|&)(utm_source|utm_medium|utm_campaign|gclid|fbclid)=") {
    set req.url = regsuball(req.url, "&(utm_source|utm_medium|utm_campaign|gclid|fbclid)=([A-Za-z0-9_\-\.%25]+)", "");
    set req.url = regsuball(req.url, "\?(utm_source|utm_medium|utm_campaign|gclid|fbclid)=([A-Za-z0-9_\-\.%25]+)", "?");
    set req.url = regsub(req.url, "\?&", "?");
    set req.url = regsub(req.url, "\?$", "");
  }
  cookie.parse(req.http.Cookie);
  cookie.keep_re("^(wordpress_|wp-settings-|comment_)");
  set req.http.Cookie = cookie.get_string();
  if (req.http.Cookie == "") {
    unset req.http.Cookie;
  }
  if (req.http.Authorization || req.http.Cookie) {
    return (pass);
  }
  return (hash);
}

sub vcl_backend_response {
  set beresp.http.x-url = bereq.url;
  set beresp.http.x-host = bereq.http.host;
  if (bereq.url ~ "\.(css|js|png|jpe?g|gif|svg|woff2?)(\?.*)?$") {
    unset beresp.http.Set-Cookie;
    set beresp.ttl = 1d;
  }
  if (beresp.http.Content-Type ~ "text|javascript|json|xml") {
    set beresp.do_gzip = true;
  }
  set beresp.grace = 6h;
}

sub vcl_deliver {
  unset resp.http.x-url;
  unset resp.http.x-host;
  unset resp.http.X-Powered-By;
  if (obj.hits > 0) {
    set resp.http.X-Cache = "HIT";
  } else {
    set resp.http.X-Cache = "MISS";
  }
}
