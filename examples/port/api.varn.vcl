# examples/port/api.vcl, as it is written here.
vcl 4.1;

backend default {
  .host = "api.internal";
  .port = "8000";
}

sub vcl_recv {
  if (req.http.X-API-Key !~ "^[a-zA-Z0-9]{32}$") {
    return (synth(401, "Unauthorized"));
  }
  if (req.method == "OPTIONS") {
    return (synth(204));
  }
  if (req.method != "GET" && req.method != "HEAD") {
    return (pass);
  }
  if (req.url ~ "^/v[12]/") {
    set req.url = regsub(req.url, "^/v([12])/(.*)$", "/\2?v=\1");
  }
  return (hash);
}

sub vcl_hash {
  hash_data(req.http.X-API-Key);
}

sub vcl_backend_fetch {
  set bereq.http.X-Request-ID = bereq.http.X-Varnish;
}

sub vcl_backend_response {
  if (beresp.http.Set-Cookie ~ "^trace") {
    unset beresp.http.Set-Cookie;
  }
  if (beresp.http.Content-Type ~ "^application/([\w.-]+\+)?json") {
    set beresp.ttl = 30s;
  }
}

sub vcl_synth {
  set resp.http.Content-Type = "application/json";
  if (resp.status == 204) {
    set resp.http.Access-Control-Allow-Origin = "*";
    return (deliver);
  }
  set resp.body = {"{"status": "} + resp.status + {", "reason": ""} + resp.reason + {"" }"};
  return (deliver);
}
