# Several backends by directors, as such a site is run behind Varnish 7.
vcl 4.1;

import directors;
import std;

probe alive {
  .url = "/alive";
  .interval = 3s;
  .expected_response = 204;
}

backend a {
  .host = "10.0.0.1";
  .probe = alive;
}

backend b {
  .host = "10.0.0.2";
  .probe = alive;
}

backend sorry {
  .host = "10.0.0.9";
}

sub vcl_init {
  new pages = directors.random();
  pages.add_backend(a, 2.0);
  pages.add_backend(b, 1.5);
  new files = directors.shard();
  files.add_backend(a);
  files.add_backend(b);
  files.reconfigure(67);
  new all = directors.fallback(sticky = true);
  all.add_backend(pages.backend());
  all.add_backend(sorry);
  std.log("started");
}

sub vcl_recv {
  if (req.url ~ "^/files/") {
    set req.backend_hint = files.backend(by = URL);
  } else {
    set req.backend_hint = all.backend();
  }
  if (!std.healthy(req.backend_hint)) {
    set req.backend_hint = sorry;
  }
  set req.http.X-Random = std.random(0, 100);
}

sub vcl_backend_response {
  set beresp.http.X-From = beresp.backend.name;
  if (beresp.status >= 500) {
    if (bereq.retries < 1 && (bereq.method == "GET" || bereq.method == "HEAD")) {
      return (retry);
    }
  }
}
