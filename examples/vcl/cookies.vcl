# Cookies that say nothing to the site go, so that pages are stored for everybody who has no others. What doesn't
# change with the visitor, as pictures and styles, is stored whatever cookies come and go with it.
vcl 4.1;

import cookie;

backend default {
  .host = "127.0.0.1";
  .port = "8080";
}

sub vcl_recv {
  if (req.url ~ "\.(css|js|png|svg)(\?|$)") {
    unset req.http.Cookie;
  } elseif (req.http.Cookie) {
    cookie.parse(req.http.Cookie);
    cookie.filter("_ga, _gid, utm_source, utm_medium, utm_campaign, utm_term, utm_content");
    set req.http.Cookie = cookie.get_string();
    if (req.http.Cookie == "") {
      unset req.http.Cookie;
    }
  }
}

sub vcl_backend_response {
  if (bereq.url ~ "\.(css|js|png|svg)(\?|$)") {
    unset beresp.http.Set-Cookie;
  }
}
