program strs;
{ Strings with a length, and those on the heap. }
{$H-}
var
  line: string;
  part: string[5];
  long: ansistring;
  number, problem: integer;
  digits: string;
begin
  line := 'the quick brown fox';
  part := copy(line, 5, 20);
  writeln(part, ' ', length(part), ' ', pos('brown', line));
  delete(line, 1, 4);
  insert('very ', line, 1);
  writeln(line, ' ', upcase(line));
  str(-1234: 7, digits);
  writeln('[', digits, ']');
  val('321', number, problem);
  writeln(number, ' ', problem);
  val('32x1', number, problem);
  writeln(problem);
  long := '';
  for number := 1 to 200 do
    long := long + 'abc';
  writeln(length(long), ' ', copy(long, 599, 10), ' ', pos('ca', long));
  writeln('abc' < 'abd', ' ', 'abc' < 'ab', ' ', long > 'abc');
end.
