# examples/port/blog.vcl, as it is written here.
vcl 4.1;

backend default {
  .host = "127.0.0.1";
  .port = "8080";
}

acl purgers {
  "localhost";
}

sub vcl_recv {
  set req.http.Host = regsub(req.http.Host, ":[0-9]+$", "");
  unset req.http.Proxy;

  if (req.method == "PURGE") {
    if (!client.ip ~ purgers) {
      return (synth(405, "Purging isn't for you"));
    }
    if (req.http.X-Purge-Method == "regex") {
      ban("obj.http.x-url ~ " + req.url + " && obj.http.x-host == " + req.http.Host);
      return (synth(200, "Banned"));
    }
    return (purge);
  }
  if (req.method != "GET" && req.method != "HEAD") {
    return (pass);
  }
  if (req.url ~ "/wp-(login|admin|cron)" || req.url ~ "(\?|&)preview=true") {
    return (pass);
  }
  if (req.url ~ "(\?|&)(utm_source|utm_medium|utm_campaign|gclid|fbclid)=") {
    set req.url = regsuball(req.url, "&(utm_source|utm_medium|utm_campaign|gclid|fbclid)=([A-Za-z0-9_\-\.%25]+)", "");
    set req.url = regsuball(req.url, "\?(utm_source|utm_medium|utm_campaign|gclid|fbclid)=([A-Za-z0-9_\-\.%25]+)", "?");
    set req.url = regsub(req.url, "\?&", "?");
    set req.url = regsub(req.url, "\?$", "");
  }
  if (req.http.Cookie !~ "(^|; *)(wordpress_|wp-settings-|comment_)") {
    unset req.http.Cookie;
  }
  if (req.http.Authorization || req.http.Cookie) {
    return (pass);
  }
  return (hash);
}

sub vcl_backend_response {
  set beresp.http.x-url = bereq.url;
  set beresp.http.x-host = bereq.http.host;
  if (bereq.url ~ "\.(css|js|png|jpe?g|gif|svg|woff2?)(\?.*)?$") {
    unset beresp.http.Set-Cookie;
    set beresp.ttl = 1d;
  }
  set beresp.grace = 6h;
}

sub vcl_deliver {
  unset resp.http.x-url;
  unset resp.http.x-host;
  unset resp.http.X-Powered-By;
  if (obj.hits > 0) {
    set resp.http.X-Cache = "HIT";
  } else {
    set resp.http.X-Cache = "MISS";
  }
}
