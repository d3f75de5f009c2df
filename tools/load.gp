/* Tables of airyrun as exact numbers in PARI/GP, and texts of tensors from nested vectors.

    T = airy_load("wk8.txt")           what `airyrun table wk 8 > wk8.txt` wrote
    T = airy_document("wk8.json")      the same from a JSON document, by python3 and tools/load.py: start gp in the folder above tools
    amplitude(T, 1, 2, 0)              5/8, the amplitude F(1,2)[0,2]; the indices may stand in any order
    intersection(T, 2, 4)              1/1152, of a table of wk: <tau_4>_2
    theta_number(T, 2, 1)              3/128, of a table of bgw: <Theta; tau_1>_2
    airy_write("mine.txt", A, B, C, D) the text of the tensors with A[i][j][k], .., D[i], counted from 1, for `airyrun table - X`

   A table is a Map from [g, [d1, .., dn]], d1 <= .. <= dn, to fractions; those of wp are polynomials in p, which stands for pi squared. A table
   that was refused is an error with the program's line. */

airy_line(line) =
{
  my(outer = strsplit(line, "] "), key, pair);
  if (#outer != 2, error(line));
  key = strsplit(outer[1], " [");
  pair = strsplit(key[1], ",");
  [[eval(pair[1]), apply(eval, strsplit(key[2], " "))], eval(strjoin(strsplit(outer[2], " p"), "*'p"))];
}

airy_table(lines) =
{
  my(entry, table = Map());
  if (#lines == 0, error("a table without lines"));
  for (r = 1, #lines, entry = airy_line(lines[r]); mapput(table, entry[1], entry[2]));
  table;
}

airy_load(file) = airy_table(readstr(file));
airy_document(file) = airy_table(externstr(Str("python3 tools/load.py '", file, "'")));

airy_at(table, g, d) =
{
  my(key = [g, vecsort(d)]);
  if (!mapisdefined(table, key), error("the table has no ", key));
  mapget(table, key);
}
amplitude(table, g, d[..]) = airy_at(table, g, d);

airy_divided(table, g, d, law) =
{
  if (#d == 0 || 2*g - 2 + #d <= 0, error("the pair ", [g, #d], " is not stable"));
  if (vecsum(d) != law, 0, airy_at(table, g, d) / prod(r = 1, #d, prod(k = 1, d[r], 2*k + 1)));
}
intersection(table, g, d[..]) = airy_divided(table, g, d, 3*g - 3 + #d);
theta_number(table, g, d[..]) = airy_divided(table, g, d, g - 1);

airy_entries(name, T, dim, symmetric) =
{
  my(lines = List());
  for (i = 1, dim, for (j = 1, dim, for (k = 1, dim,
    if (symmetric && T[i][j][k] != T[i][k][j], error(name, " is not symmetric at ", [i, j, k]));
    if (T[i][j][k] != 0 && (j <= k || !symmetric), listput(lines, Str(name, " ", i - 1, " ", j - 1, " ", k - 1, " ", T[i][j][k]))))));
  Vec(lines);
}

/* The lines of the text `airy 1`; the program's indices count from 0. */
airy_text(A, B, C, D) =
{
  my(dim = #D, lines = List());
  for (i = 1, dim, if (D[i] != 0, listput(lines, Str("D ", i - 1, " ", D[i]))));
  concat([["airy 1", Str("dim ", dim)], airy_entries("A", A, dim, 1), airy_entries("B", B, dim, 0), airy_entries("C", C, dim, 1), Vec(lines), ["end"]]);
}

airy_write(file, A, B, C, D) =
{
  my(lines = airy_text(A, B, C, D));
  for (r = 1, #lines, write(file, lines[r]));
}
