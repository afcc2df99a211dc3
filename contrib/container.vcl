# The VCL of contrib/Dockerfile, for a backend at the name `site` of the container's network. /varn-health is answered here, and
# asks nothing of the backend; the rest is examples/vcl/grace.vcl.
vcl 4.1;

backend default {
  .host = "site";
  .port = "8080";
}

sub vcl_recv {
  if (req.url == "/varn-health") {
    return (synth(200, "Healthy"));
  }
  if (req.restarts == 0) {
    set req.grace = 10s;
  }
}

sub vcl_backend_response {
  set beresp.grace = 1h;
}

sub vcl_deliver {
  if (resp.status == 503 && req.restarts == 0 && (req.method == "GET" || req.method == "HEAD")) {
    return (restart);
  }
}
