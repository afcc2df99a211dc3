# examples/port/shop.vcl, as it is written here.
vcl 4.1;

backend default {
  .host = "localhost";
  .port = "8080";
}

acl purge {
  "localhost";
}

sub vcl_recv {
  set req.url = regsub(req.url, "^http[s]?://", "");

  if (req.method == "PURGE") {
    if (client.ip !~ purge) {
      return (synth(405, "Method not allowed"));
    }
    if (!req.http.X-Tags-Pattern && !req.http.X-Pool) {
      return (synth(400, "X-Tags-Pattern or X-Pool header required"));
    }
    if (req.http.X-Tags-Pattern) {
      ban("obj.http.X-Tags ~ " + req.http.X-Tags-Pattern);
    }
    return (synth(200, "Purged"));
  }
  if (req.method != "GET" && req.method != "HEAD") {
    return (pass);
  }
  if (req.url ~ "/(catalogsearch|checkout|customer|graphql/mutation)") {
    return (pass);
  }
  if (req.restarts == 0) {
    set req.grace = 300s;
  }
  if (req.http.cookie ~ "wp_woo_session=|frontend_login=1") {
    return (pass);
  }
  unset req.http.Cookie;
  return (hash);
}

sub vcl_hash {
  if (req.http.X-Forwarded-Proto) {
    hash_data(req.http.X-Forwarded-Proto);
  }
  if (req.http.cookie ~ "X-Vary=") {
    hash_data(regsub(req.http.cookie, "^.*?X-Vary=([^;]+);*.*$", "\1"));
  }
}

sub vcl_backend_response {
  set beresp.grace = 3d;
  if (beresp.status != 200 && beresp.status != 404 && beresp.http.Cache-Control ~ "private") {
    set beresp.uncacheable = true;
    set beresp.ttl = 86400s;
    return (deliver);
  }
  if (beresp.ttl > 0s && (bereq.method == "GET" || bereq.method == "HEAD")) {
    unset beresp.http.set-cookie;
  }
}

sub vcl_deliver {
  if (resp.status == 503 && req.restarts == 0 && (req.method == "GET" || req.method == "HEAD")) {
    return (restart);
  }
  if (resp.http.X-Debug) {
    set resp.http.X-Cache-Hits = obj.hits;
  } else {
    unset resp.http.Age;
  }
  unset resp.http.X-Tags;
  unset resp.http.Server;
  unset resp.http.Via;
}
