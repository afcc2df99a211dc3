# Several sites behind one cache, as such a machine is run behind Varnish 7.
vcl 4.1;

import std;

backend blog {
  .host = "10.0.0.21";
}

backend shop {
  .host = "10.0.0.22";
}

backend old {
  .path = "/run/old.sock";
}

acl office -pedantic +log {
  "192.168.1.0"/24;
  ("office.example.com");
}

sub vcl_recv {
  if (local.socket == "admin" && client.ip !~ office) {
    return (synth(403));
  }
  if (req.http.Host == "api.example.com") {
    return (vcl(api_label));
  }
  if (req.http.Host ~ "^(www\.)?blog\.example\.com$") {
    set req.backend_hint = blog;
  } elseif (req.http.Host ~ "(^|\.)shop\.example\.com$") {
    set req.backend_hint = shop;
  } else {
    set req.backend_hint = old;
  }
  if (req.http.X-Forwarded-Proto != "https" && req.http.Host !~ "^old\.") {
    return (synth(1301, "https://" + req.http.Host + req.url));
  }
}

sub vcl_synth {
  if (resp.status == 1301) {
    set resp.status = 301;
    set resp.http.Location = resp.reason;
    set resp.reason = "Moved Permanently";
    return (deliver);
  }
}

sub vcl_backend_fetch {
  if (bereq.backend == old) {
    set bereq.http.Host = "localhost";
  }
}

sub vcl_deliver {
  set resp.http.X-Backend = req.backend_hint;
  set resp.http.X-Ip = local.ip;
}
