# An API for programs with keys, as such a site is run behind Varnish 7.
vcl 4.1;

import std;
import header;
import vsthrottle;
import bodyaccess;

backend default {
  .host = "api.internal";
  .port = "8000";
  .max_connections = 200;
  .proxy_header = 1;
}

acl internal {
  "10.0.0.0"/8;
  "fd00::"/8;
}

sub vcl_recv {
  if (req.http.X-API-Key !~ "^[a-zA-Z0-9]{32}$") {
    return (synth(401, "Unauthorized"));
  }
  if (client.ip !~ internal && vsthrottle.is_denied(req.http.X-API-Key, 100, 10s, 30s)) {
    return (synth(429, "Too Many Requests"));
  }
  if (req.method == "OPTIONS") {
    return (synth(204));
  }
  if (req.method == "POST" && req.url == "/graphql") {
    std.cache_req_body(500KB);
    set req.http.X-Body-Len = bodyaccess.len_req_body();
    return (hash);
  }
  if (req.method != "GET" && req.method != "HEAD") {
    return (pass);
  }
  if (req.url ~ "^/v(?=[12]/)") {
    set req.url = regsub(req.url, "^/v([12])/(.*)$", "/\2?v=\1");
  }
  set req.http.X-Request-ID = req.xid;
  return (hash);
}

sub vcl_hash {
  hash_data(req.http.X-API-Key);
}

sub vcl_backend_response {
  header.remove(beresp.http.Set-Cookie, "^trace");
  if (beresp.http.Content-Type ~ "^application/([\w-.]+\+)?json") {
    set beresp.ttl = std.duration(beresp.http.X-TTL, 30s);
  }
  set beresp.do_stream = false;
}

sub vcl_synth {
  set resp.http.Content-Type = "application/json";
  if (resp.status == 204) {
    set resp.http.Access-Control-Allow-Origin = "*";
    return (deliver);
  }
  set resp.body = {"{"status": "} + resp.status + {", "reason": ""} + resp.reason + {"" }"};
  return (deliver);
}
