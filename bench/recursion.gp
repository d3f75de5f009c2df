/* A recursion for intersection numbers as one writes it by hand in PARI/GP: that of Dijkgraaf, Verlinde and Verlinde, with a Map of what was found.
   `hand(X)` makes all numbers up to 2g - 2 + n = X, and returns how many; docs/LITERATURE.md has its times. */

odd(d) = prod(k = 1, d, 2*k + 1);
known = Map();

tau(g, d) =
{
  my(n = #d, k, rest, found, e, J);
  if (g < 0 || 2*g - 2 + n <= 0 || vecsum(d) != 3*g - 3 + n, return(0));
  d = vecsort(d);
  if (mapisdefined(known, [g, d]), return(mapget(known, [g, d])));
  if (d[n] == 0, return(1));
  if (n == 1 && g == 1, return(1/24));
  k = d[n] - 1; rest = d[1..n-1];
  found = sum(r = 1, n - 1, e = rest; e[r] += k; odd(e[r]) / if (rest[r], odd(rest[r] - 1), 1) * tau(g, e));
  for (a = 0, k - 1, my(b = k - 1 - a, both = tau(g - 1, concat(rest, [a, b])));
    forsubset(n - 1, S, J = vecextract(rest, S); e = vecextract(rest, setminus([1..n-1], Vec(S)));
      both += sum(h = 0, g, if (vecsum(J) + a == 3*h - 2 + #J, tau(h, concat(J, a)) * tau(g - h, concat(e, b)))));
    found += odd(a) * odd(b) / 2 * both);
  found /= odd(k + 1);
  mapput(known, [g, d], found);
  found;
}

hand(X) =
{
  my(n, count = 0);
  for (euler = 1, X, for (g = 0, (euler + 1)\2, n = euler + 2 - 2*g;
    if (n >= 1, forpart(p = 3*g - 3 + n, tau(g, concat(vector(n - #p), Vec(p))); count++, , [0, n]))));
  count;
}
