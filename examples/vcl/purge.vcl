# Purges for some: PURGE takes the page of its URL out of the cache at once. It is for machines of the office that have a
# key as well. Of the entries of an ACL that hold an address, the one with the longest mask decides.
#
# client.ip is the address of whoever made the connection. Behind a proxy that is the proxy's, for every visitor: with a
# proxy on the same machine "localhost" is everybody. The key keeps visitors out there too. Without a key, such a proxy
# has to refuse PURGE itself, or "localhost" doesn't stand here. Write a long random key in place of this one.
vcl 4.1;

backend default {
  .host = "127.0.0.1";
  .port = "8080";
}

acl office {
  "localhost";
  "10.0.0.0"/29;
  ! "10.0.0.5";
}

sub vcl_recv {
  if (req.method == "PURGE") {
    if (client.ip !~ office || req.http.X-Purge-Key != "a-key-of-the-office") {
      return (synth(405, "Not allowed"));
    }
    return (purge);
  }
}
