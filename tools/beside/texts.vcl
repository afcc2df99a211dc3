# What expressions and texts come to, and how long replies are kept, shown by fields of the response.
vcl 4.1;

import std;

backend default {
  .host = "127.0.0.1";
  .port = "8080";
}

acl here {
  "127.0.0.0"/8;
  ! "127.0.0.9";
}

sub vcl_recv {
  if (req.url ~ "^/texts") {
    return (synth(200));
  }
  if (req.url ~ "^/empty-pattern") {
    return (synth(200, regsuball("abc", "", "-")));
  }
  if (req.url ~ "^/synth") {
    return (synth(750, "x"));
  }
  if (req.url ~ "^/moved") {
    return (synth(301));
  }
  if (req.url ~ "^/loop") {
    return (restart);
  }
  if (req.url ~ "^/fail") {
    return (fail);
  }
  if (req.url ~ "^/set") {
    set req.url = "/other";
    set req.method = "HEAD";
  }
  if (req.url ~ "^/options") {
    if (req.restarts == 0) {
      set req.ttl = 7s;
      set req.hash_always_miss = true;
      return (restart);
    }
    return (synth(200, req.ttl + " " + req.hash_always_miss));
  }
}

sub vcl_synth {
  if (req.url ~ "^/texts") {
    set resp.http.Replaced = regsub("aXbXc", "X(.)", "[\0\1\\]") + regsuball("aXbXc", "X", "") + regsub("abc", "b", "\9");
    set resp.http.Named = regsub("foobar", "(?i)OO(?P<x>b)", "<\1>") + regsub("a/b", "/", "\\/");
    set resp.http.Joined = "n" + req.http.Nope + "n" + 1 + 2;
    set resp.http.Sums = 1 + 2 + "x";
    set resp.http.Times = 90s + 1.5m;
    set resp.http.Parts = 0.5s + 1ms + 1d;
    set resp.http.Less = -5s;
    set resp.http.Truth = true;
    set resp.http.Address = client.ip;
    set resp.http.Numbers = std.integer(" 12 ", 7) + " " + std.integer("x", 7) + " " + std.integer("-3", 7) + " " + std.integer("", 7);
    set resp.http.Cases = std.tolower("ÄBc") + std.toupper("äbc");
    set resp.http.Tests = "" + (client.ip ~ here) + (req.url ~ "x") + (req.http.Nope == "") + (req.http.Nope != "") + (1 < 2);
    set resp.http.Options = req.restarts + " " + req.ttl + " " + req.grace + " " + req.hash_always_miss;
    set resp.http.Backend = req.backend_hint;
    set resp.http.Added = "a";
    set resp.http.Added += "b";
    set resp.http.Absent = "[" + req.http.Nope + "]";
    set resp.http.First = req.http.Multi;
    set resp.http.Request = req.proto + " " + req.method + " " + client.identity;
    if (req.http.Empty) {
      set resp.http.Empty = "there";
    }
  }
  set resp.http.Restarts = req.restarts;
}

sub vcl_backend_response {
  if (bereq.url ~ "^/zero") {
    set beresp.ttl = 0s;
    return (deliver);
  }
  set beresp.http.X-Kept = beresp.ttl + " " + beresp.grace + " " + beresp.keep + " " + beresp.uncacheable;
}

sub vcl_deliver {
  set resp.http.X-Object = obj.hits + " " + obj.uncacheable + " " + req.is_hitmiss + " " + req.is_hitpass;
}
