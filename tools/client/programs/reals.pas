program reals;
{ Real numbers of three sizes. }
var
  short: single;
  long: double;
  sum: double;
  number: integer;
begin
  short := 1 / 4;
  long := 2;
  writeln(short: 6: 3, ' ', sqrt(long): 12: 9, ' ', -long / 3: 0: 6);
  sum := 0;
  for number := 1 to 1000 do
    sum := sum + 1 / (long * number - 1) * (2 * (number and 1) - 1);
  writeln(4 * sum: 0: 4);
  writeln(trunc(-2.75), ' ', round(2.75), ' ', int(7.5): 0: 1, ' ', frac(7.5): 0: 2);
  writeln(exp(1): 0: 6, ' ', ln(10): 0: 6, ' ', sin(1): 0: 6, ' ', arctan(1) * 4: 0: 6);
  writeln(1.5e10: 0: 0, ' ', 1 / 1024: 0: 10);
end.
