# examples/port/balance.vcl, as it is written here.
vcl 4.1;

import directors;

backend a {
  .host = "10.0.0.1";
}

backend b {
  .host = "10.0.0.2";
}

backend sorry {
  .host = "10.0.0.9";
}

sub vcl_init {
  new pages = directors.random();
  pages.add_backend(a, 4);
  pages.add_backend(b, 3);
  new files = directors.hash();
  files.add_backend(a);
  files.add_backend(b);
}

sub vcl_recv {
  if (req.url ~ "^/files/") {
    set req.backend_hint = files.backend(req.url);
  } else {
    set req.backend_hint = pages.backend();
  }
}

sub vcl_backend_response {
  set beresp.http.X-From = beresp.backend;
  if (beresp.status >= 500) {
    if (bereq.retries < 1 && (bereq.method == "GET" || bereq.method == "HEAD")) {
      return (retry);
    }
  }
}

sub vcl_backend_fetch {
  if (bereq.retries > 0) {
    set bereq.backend = sorry;
  }
}

sub vcl_backend_error {
  if (bereq.retries == 0 && (bereq.method == "GET" || bereq.method == "HEAD")) {
    return (retry);
  }
}
