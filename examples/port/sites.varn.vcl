# examples/port/sites.vcl, as it is written here.
vcl 4.1;

backend blog {
  .host = "10.0.0.21";
}

backend shop {
  .host = "10.0.0.22";
}

backend old {
  .host = "127.0.0.1";
  .port = "8081";
}

acl office {
  "192.168.1.0"/24;
  "10.0.0.41";
}

sub vcl_recv {
  if (req.url ~ "^/admin" && client.ip !~ office) {
    return (synth(403));
  }
  if (req.http.Host == "api.example.com") {
    return (pass);
  }
  if (req.http.Host ~ "^(www\.)?blog\.example\.com$") {
    set req.backend_hint = blog;
  } elseif (req.http.Host ~ "(^|\.)shop\.example\.com$") {
    set req.backend_hint = shop;
  } else {
    set req.backend_hint = old;
  }
  if (req.http.X-Forwarded-Proto != "https" && req.http.Host !~ "^old\.") {
    return (synth(801, "https://" + req.http.Host + req.url));
  }
}

sub vcl_synth {
  if (resp.status == 801) {
    set resp.status = 301;
    set resp.http.Location = resp.reason;
    set resp.reason = "Moved Permanently";
    return (deliver);
  }
}

sub vcl_backend_fetch {
  if (bereq.backend == old) {
    set bereq.http.Host = "localhost";
  }
}

sub vcl_deliver {
  set resp.http.X-Backend = req.backend_hint;
  set resp.http.X-Ip = server.ip;
}
