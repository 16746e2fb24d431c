program cases;
{ Cases of numbers and letters, sets, and loops with their ends. }
type
  days = (monday, tuesday, wednesday, thursday, friday, saturday, sunday);
var
  day: days;
  free: set of days;
  letters: set of char;
  letter: char;
  number, steps: integer;

function kind(letter: char): string;
begin
  case letter of
    'a', 'e', 'i', 'o', 'u': kind := 'vowel';
    'b'..'d', 'f'..'h', 'j'..'n', 'p'..'t', 'v'..'z': kind := 'consonant';
    '0'..'9': kind := 'digit';
  else
    kind := 'other';
  end;
end;

begin
  writeln(kind('e'), ' ', kind('q'), ' ', kind('7'), ' ', kind('E'));
  free := [saturday, sunday] + [wednesday] - [sunday];
  for day := monday to sunday do
    if day in free then
      write(ord(day), ' ');
  writeln(free = [wednesday, saturday], ' ', [sunday] <= free);
  letters := ['a'..'z'] * ['x'..chr(200)];
  for letter := chr(0) to chr(255) do
    if letter in letters then
      write(letter);
  writeln;
  number := 27;
  steps := 0;
  repeat
    case number mod 2 of
      0: number := number div 2;
      1: number := number * 3 + 1;
    end;
    inc(steps);
    if steps = 1000 then
      break;
  until number = 1;
  for number := 10 downto 1 do
    begin
      if odd(number) then
        continue;
      write(number, ' ');
    end;
  writeln(steps);
end.
