# A site under repair: whoever isn't of the office gets a page that says so, with the status 503. It is loaded beside
# the site's own VCL and used for as long as the repair lasts; what is stored stays meanwhile.
vcl 4.1;

backend default {
  .host = "127.0.0.1";
  .port = "8080";
}

acl office {
  "10.0.0.1";
}

sub vcl_recv {
  if (client.ip !~ office) {
    return (synth(503, "Under repair"));
  }
}

sub vcl_synth {
  if (resp.status == 503) {
    set resp.http.Content-Type = "text/html; charset=utf-8";
    set resp.http.Retry-After = "600";
    set resp.body = {"<!doctype html>
<html lang="en">
<title>Under repair</title>
<p>Please come again in ten minutes.</p>
</html>
"};
    return (deliver);
  }
}
