# Two backends that take turns. One that is sick is passed over. A fetch by GET or HEAD that fails is made once more with
# the next one; one by another method isn't, since the first backend may have done what it asks for.
vcl 4.1;

import directors;

backend east {
  .host = "127.0.0.1";
  .port = "8081";
}

backend west {
  .host = "127.0.0.1";
  .port = "8082";
}

sub vcl_init {
  new both = directors.round_robin();
  both.add_backend(east);
  both.add_backend(west);
}

sub vcl_recv {
  set req.backend_hint = both.backend();
}

sub vcl_backend_error {
  if (bereq.retries == 0 && (bereq.method == "GET" || bereq.method == "HEAD")) {
    return (retry);
  }
}
