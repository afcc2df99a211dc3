# The site of examples/site/, as `examples/serve.sh --demo` serves it. Cookies go, but for the one of a login, so that pages
# are stored for everybody else. A page is kept for an hour behind its lifetime: for ten seconds of that it is sent while
# it is fetched anew behind the response, and for the whole hour where the site fails. PURGE with a key makes the pages
# with one of the tags in X-Tags old. Each response says where it came from.
vcl 4.1;

import xkey;

backend default {
  .host = "127.0.0.1";
  .port = "8080";
}

acl operators {
  "localhost";
  "10.0.0.1";
}

sub vcl_recv {
  if (req.method == "PURGE") {
    if (client.ip !~ operators || req.http.X-Purge-Key != "demo") {
      return (synth(405, "Not allowed"));
    }
    return (synth(200, "Over: " + xkey.softpurge(req.http.X-Tags)));
  }
  if (req.restarts == 0) {
    set req.grace = 10s;
  }
  if (req.http.Cookie !~ "(^|; *)login=") {
    unset req.http.Cookie;
  }
}

sub vcl_backend_response {
  if (beresp.status >= 500 && !bereq.uncacheable) {
    return (error(beresp.status, beresp.reason));
  }
  if (bereq.url ~ "\.(css|svg)(\?|$)") {
    unset beresp.http.Set-Cookie;
  }
  set beresp.grace = 1h;
}

sub vcl_deliver {
  if (resp.status >= 500 && req.restarts == 0 && (req.method == "GET" || req.method == "HEAD")) {
    return (restart);
  }
  unset resp.http.xkey;
  if (obj.uncacheable) {
    set resp.http.X-Cache = "PASS";
  } elseif (obj.hits > 0) {
    set resp.http.X-Cache = "HIT";
  } else {
    set resp.http.X-Cache = "MISS";
  }
}
