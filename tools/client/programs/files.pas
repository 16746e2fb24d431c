program files;
{ A text file and a typed one: written, read, looked into, and taken away. }
type
  pair = record
    number: integer;
    square: longint;
  end;
var
  lines: text;
  pairs: file of pair;
  one: pair;
  line: string;
  count: integer;
  sum: longint;
begin
  assign(lines, 'LINES.TMP');
  rewrite(lines);
  for count := 1 to 50 do
    writeln(lines, 'line ', count);
  close(lines);
  reset(lines);
  count := 0;
  while not eof(lines) do
    begin
      readln(lines, line);
      inc(count);
    end;
  close(lines);
  writeln(count, ' ', line);
  assign(pairs, 'PAIRS.TMP');
  rewrite(pairs);
  for count := 0 to 99 do
    begin
      one.number := count;
      one.square := longint(count) * count * 10;
      write(pairs, one);
    end;
  writeln(filesize(pairs), ' ', filepos(pairs));
  seek(pairs, 42);
  read(pairs, one);
  writeln(one.number, ' ', one.square);
  sum := 0;
  reset(pairs);
  while not eof(pairs) do
    begin
      read(pairs, one);
      sum := sum + one.square;
    end;
  close(pairs);
  writeln(sum);
  erase(lines);
  erase(pairs);
  {$I-}
  reset(lines);
  {$I+}
  writeln(ioresult);
end.
