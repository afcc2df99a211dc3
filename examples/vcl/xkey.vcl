# Tags: the site names in a field `xkey` what a page is about, and PURGE takes all pages with one of the tags in X-Purge
# out of the cache. Those with one in X-Softpurge are only over: they are sent in their grace, here of a minute, and
# fetched anew behind the response. The answer says how many pages there were. Who may purge is told by the address alone:
# behind a proxy a key is wanted too, as in purge.vcl.
vcl 4.1;

import xkey;

backend default {
  .host = "127.0.0.1";
  .port = "8080";
}

acl office {
  "10.0.0.1";
}

sub vcl_recv {
  if (req.method == "PURGE") {
    if (client.ip !~ office) {
      return (synth(405, "Not allowed"));
    }
    if (req.http.X-Softpurge) {
      return (synth(200, "Over: " + xkey.softpurge(req.http.X-Softpurge)));
    }
    return (synth(200, "Gone: " + xkey.purge(req.http.X-Purge)));
  }
}

sub vcl_backend_response {
  set beresp.grace = 1m;
}

sub vcl_deliver {
  unset resp.http.xkey;
}
