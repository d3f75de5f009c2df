/* What tools/loaders.py asks of load.gp: every entry of three tables, and the string and dilaton equations. The files are named by the caller. */

drop(d, r) = concat(d[1..r-1], d[r+1..#d]);

string_holds(T) =
{
  my(keys = Mat(T)[, 1]~, g, d, right, count = 0);
  for (r = 1, #keys, [g, d] = keys[r];
    if (d[1] != 0 || #d == 1 || [g, #d] == [0, 3], next);
    d = d[2..#d];
    right = sum(k = 1, #d, if (d[k] == 0, 0, my(e = d); e[k]--; call(intersection, [T, g, e])));
    if (call(intersection, [T, g, concat(0, d)]) != right, error("string at ", keys[r]));
    count++);
  count;
}

dilaton_holds(T, number, index) =
{
  my(keys = Mat(T)[, 1]~, g, d, place, count = 0);
  for (r = 1, #keys, [g, d] = keys[r];
    place = select(e -> e == index, d, 1);
    if (#place == 0 || #d == 1 || 2*g - 3 + #d <= 0, next);
    d = drop(d, place[1]);
    if (call(number, [T, g, concat(index, d)]) != (2*g - 2 + #d) * call(number, [T, g, d]), error("dilaton at ", keys[r]));
    count++);
  count;
}

/* The recursion of bench/recursion.gp against the table. */
by_hand(T) =
{
  my(keys = Mat(T)[, 1]~, g, d);
  for (r = 1, #keys, [g, d] = keys[r]; if (tau(g, d) != call(intersection, [T, g, d]), error("by hand at ", keys[r])));
  #keys;
}

dump(T, file) =
{
  my(lines = Mat(T));
  for (r = 1, matsize(lines)[1], write(file, lines[r, 1][1], " ", lines[r, 1][2], " ", Vecrev(lines[r, 2])));
}
