# Two backends, each with what tells whether it is well and how long it is waited for. The probe of the first one has a name,
# so that others may have it too; that of the second one stands in its braces, and what it leaves out has its usual value.
# The second backend is asked where the first one is sick.
vcl 4.1;

import directors;

probe page {
  .url = "/health";
  .interval = 2s;
  .timeout = 1s;
  .window = 5;
  .threshold = 3;
  .initial = 2;
  .expected_response = 204;
}

backend main {
  .host = "127.0.0.1:8081";
  .probe = page;
  .connect_timeout = 1s;
  .first_byte_timeout = 10s;
  .between_bytes_timeout = 5s;
  .max_connections = 50;
}

backend spare {
  .host = "127.0.0.1";
  .port = "8082";
  .probe = {
    .url = "/up";
  }
}

sub vcl_init {
  new either = directors.fallback();
  either.add_backend(main);
  either.add_backend(spare);
}

sub vcl_recv {
  set req.backend_hint = either.backend();
}
