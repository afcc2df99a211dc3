# examples/port/assets.vcl, as it is written here.
vcl 4.1;

backend origin {
  .host = "origin.example.com";
  .port = "80";
}

sub vcl_recv {
  if (req.method != "GET" && req.method != "HEAD") {
    return (synth(405));
  }
  unset req.http.Cookie;
  set req.url = regsub(req.url, "\?.*$", "");
  if (req.url ~ "\.(zip|iso|tar\.gz|mp4)$") {
    set req.http.X-Large = "1";
  }
  if (req.http.Range ~ "^bytes=") {
    set req.http.X-Range = req.http.Range;
  }
  return (hash);
}

sub vcl_backend_fetch {
  set bereq.http.Host = "origin.example.com";
}

sub vcl_backend_response {
  unset beresp.http.Set-Cookie;
  unset beresp.http.Vary;
  if (bereq.http.X-Large) {
    set beresp.ttl = 1w;
  } else {
    set beresp.ttl = 30d;
  }
  set beresp.grace = 1d;
}

sub vcl_deliver {
  set resp.http.Access-Control-Allow-Origin = "*";
  set resp.http.X-Cache = obj.hits;
}
