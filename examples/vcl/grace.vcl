# Old pages where the backend is sick: a page is kept for an hour behind its lifetime. While the backend answers, it is
# sent for ten seconds of that at most, and fetched anew behind the response. Where a fetch fails, or the backend is
# sick, a GET or HEAD begins once more without these ten seconds, so that whatever is left of the page is sent. Other
# requests begin once alone: the backend may have done what a POST asked for though its reply didn't come.
vcl 4.1;

backend default {
  .host = "127.0.0.1";
  .port = "8080";
}

sub vcl_recv {
  if (req.restarts == 0) {
    set req.grace = 10s;
  }
}

sub vcl_backend_response {
  set beresp.grace = 1h;
}

sub vcl_deliver {
  if (resp.status == 503 && req.restarts == 0 && (req.method == "GET" || req.method == "HEAD")) {
    return (restart);
  }
}
