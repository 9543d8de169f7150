// The loop that bench/run measures, as many times as the evaluator is asked to start it.
for (var start = 0; start < 20; start += 1) {
  (function () {
    var i = 0;
    while (i < 142855) { i += 1; }
  })();
}
