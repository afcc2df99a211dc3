# Static files and downloads, as such a site is run behind Varnish 7.
vcl 4.1;

import std;

backend origin {
  .host = "origin.example.com";
  .port = "80";
  .host_header = "origin.example.com";
  .connect_timeout = 1s;
}

sub vcl_recv {
  if (req.method != "GET" && req.method != "HEAD") {
    return (synth(405));
  }
  unset req.http.Cookie;
  set req.url = regsub(req.url, "\?.*$", "");
  if (req.url ~ "\.(zip|iso|tar\.gz|mp4)$") {
    set req.http.X-Large = "1";
  }
  if (req.http.Range ~ "^bytes=") {
    set req.http.X-Range = req.http.Range;
  }
  return (hash);
}

sub vcl_backend_fetch {
  if (bereq.http.X-Large) {
    set bereq.first_byte_timeout = 20s;
  }
}

sub vcl_backend_response {
  unset beresp.http.Set-Cookie;
  unset beresp.http.Vary;
  if (bereq.http.X-Large) {
    set beresp.do_stream = true;
    set beresp.storage = storage.large;
    set beresp.ttl = 1w;
  } else {
    set beresp.ttl = 30d;
    set beresp.do_gzip = (beresp.http.Content-Type ~ "css|javascript|svg");
  }
  set beresp.grace = 1d;
  set beresp.http.X-Stored = beresp.time;
}

sub vcl_deliver {
  set resp.http.Access-Control-Allow-Origin = "*";
  set resp.http.X-Cache = obj.hits;
  if (resp.status == 200 && resp.is_streaming) {
    set resp.http.X-Streaming = "yes";
  }
}
