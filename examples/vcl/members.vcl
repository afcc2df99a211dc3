# Pages for members: who has a cookie `session` is logged in. Guests and members have pages of their own, and a page
# is stored for all members unless the site says that it is private. Then the cache keeps in mind for an hour that
# requests of members for it pass, and none of them waits for another.
vcl 4.1;

backend default {
  .host = "127.0.0.1";
  .port = "8080";
}

sub vcl_recv {
  if (req.http.Cookie ~ "(^|; *)session=") {
    set req.http.X-Member = "yes";
  } else {
    unset req.http.X-Member;
    unset req.http.Cookie;
  }
  if (req.http.Host && (req.method == "GET" || req.method == "HEAD")) {
    return (hash);
  }
}

sub vcl_hash {
  if (req.http.X-Member) {
    hash_data("member");
  }
}

sub vcl_backend_response {
  if (beresp.http.Cache-Control ~ "(?i)private") {
    return (pass(1h));
  }
}

sub vcl_deliver {
  if (obj.uncacheable) {
    set resp.http.X-Cache = "PASS";
  } elseif (obj.hits > 0) {
    set resp.http.X-Cache = "HIT";
  } else {
    set resp.http.X-Cache = "MISS";
  }
}
