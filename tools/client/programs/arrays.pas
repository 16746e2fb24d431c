program arrays;
{ Arrays that fill much of a segment, of two dimensions, and of a length that is known at a run. }
const
  most = 8000;
var
  sieve: array [2..most] of boolean;
  table: array [1..40, 1..40] of longint;
  squares: array of longint;
  number, multiple, count, column: integer;
  sum: longint;
begin
  fillchar(sieve, sizeof(sieve), true);
  count := 0;
  for number := 2 to most do
    if sieve[number] then
      begin
        inc(count);
        multiple := number;
        while multiple <= most - number do
          begin
            inc(multiple, number);
            sieve[multiple] := false;
          end;
      end;
  writeln(count, ' ', sieve[7993], ' ', sieve[7999]);
  for number := 1 to 40 do
    for column := 1 to 40 do
      table[number, column] := longint(number) * 1000 + column;
  sum := 0;
  for number := 1 to 40 do
    sum := sum + table[number, 41 - number];
  writeln(sum, ' ', table[40, 1], ' ', sizeof(table));
  setlength(squares, 500);
  for number := 0 to high(squares) do
    squares[number] := longint(number) * number;
  writeln(length(squares), ' ', squares[499]);
end.
