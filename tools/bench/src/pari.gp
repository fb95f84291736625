\\ The ring product, an inner product and messages 1 and 5 as a PARI/GP script. It prints nanoseconds: "what value". Arguments: n, r, kappa.
q = 4294967197; T = Mod(1, q) * (X^64 + 1);
element() = Mod(Pol(vector(64, i, Mod(random(q), q)), 'X), T);
short() = Mod(Pol(vector(64, i, Mod(random(3) - 1, q)), 'X), T);
challenge() = {
  my(places = numtoperm(64, random(64!)), sizes = vector(64, i, if(i <= 10, 2, if(i <= 41, 1, 0)) * (-1)^random(2)));
  Mod(Pol(vector(64, i, Mod(sizes[places[i]], q)), 'X), T)
};
spent() = getabstime();
best = 10^30;
{
  x = vector(200, i, element()); y = vector(200, i, element());
  for(round = 1, 5, from = spent(); for(k = 1, 10, for(i = 1, 200, x[i] * y[i])); best = min(best, (spent() - from) * 10^6 / 2000.));
  print("product ", best);
  best = 10^30;
  for(round = 1, 5, from = spent(); for(k = 1, 5, x * y~); best = min(best, (spent() - from) * 10^6 / 1000.));
  print("inner ", best);
}
digit(v, b) = { my(m = v % b); if(2 * m > b || (2 * m == b && (v - m) / b % 2), m - b, m) };
digits4(e, b) = {
  my(c = vector(64, i, centerlift(polcoeff(lift(e), i - 1))), out = vector(4));
  for(k = 1, 3, my(low = vector(64, i, digit(c[i], b))); out[k] = low; c = (c - low) / b);
  out[4] = c;
  vector(4, k, Mod(Polrev(out[k], 'X) * Mod(1, q), T))
};
{
  s = vector(R, i, vector(N, k, short())); A = matrix(KAPPA, N, i, k, element());
  B = matrix(KAPPA, R * 4 * KAPPA, i, k, element()); C = matrix(KAPPA, R * (R + 1) / 2 * 4, i, k, element());
  c = vector(R, i, challenge());
  best = 10^30;
  for(round = 1, 2,
    from = spent();
    t = concat(vector(R, i, my(v = A * s[i]~, g = vector(KAPPA, k, digits4(v[k], 256))); concat(vector(4, e, vector(KAPPA, k, g[k][e])))));
    g = concat(vector(R, i, concat(vector(R - i + 1, j, digits4(s[i] * s[i + j - 1]~, 256)))));
    u = B * t~ + C * g~;
    best = min(best, (spent() - from) * 10^6));
  print("message1 ", best * 1.);
  best = 10^30;
  for(round = 1, 2, from = spent(); z = sum(i = 1, R, c[i] * s[i]); zd = vector(N, k, digits4(z[k], 16)); best = min(best, (spent() - from) * 10^6));
  print("message5 ", best * 1.);
}
quit
