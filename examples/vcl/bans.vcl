# Bans of many pages at once: BAN with a field X-Ban-Request or X-Ban-Object, which has a pattern of URLs, without
# blanks. A ban of the first kind is tested on a page when it is next asked for, with that request. One of the second
# kind names no field of a request, so a lurker can test it while nobody asks: for that each page is stored with its
# host and its URL, which clients aren't sent. Who may ban is told by the address alone: behind a proxy a key is wanted too,
# as in purge.vcl.
vcl 4.1;

backend default {
  .host = "127.0.0.1";
  .port = "8080";
}

acl office {
  "10.0.0.1";
}

sub vcl_recv {
  if (req.method == "BAN") {
    if (client.ip !~ office) {
      return (synth(405, "Not allowed"));
    }
    if (req.http.X-Ban-Request) {
      ban("req.http.Host == " + req.http.Host + " && req.url ~ " + req.http.X-Ban-Request);
    } elseif (req.http.X-Ban-Object) {
      ban("obj.http.X-Host == " + req.http.Host + " && obj.http.X-Url ~ " + req.http.X-Ban-Object);
    } else {
      return (synth(400, "Nothing to ban"));
    }
    return (synth(200, "Banned"));
  }
}

sub vcl_backend_response {
  set beresp.http.X-Host = bereq.http.Host;
  set beresp.http.X-Url = bereq.url;
}

sub vcl_deliver {
  unset resp.http.X-Host;
  unset resp.http.X-Url;
}
