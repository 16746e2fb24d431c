program arith;
{ Numbers of 8 to 64 bits. }
var
  small: byte;
  number: integer;
  long: longint;
  longest: int64;
  power: integer;
begin
  small := 250;
  small := byte(small + 10);
  writeln(small);
  number := -17;
  writeln(number div 5, ' ', number mod 5, ' ', (-number) shr 2, ' ', number and 255);
  long := 1;
  for power := 1 to 12 do
    long := long * power;
  writeln(long, ' ', long div 1000, ' ', long mod 1000, ' ', long shr 8, ' ', long xor $FFFF);
  longest := 1;
  for power := 1 to 20 do
    longest := longest * power;
  writeln(longest, ' ', longest div 1000000007, ' ', longest mod 1000000007);
  writeln(low(integer), ' ', high(integer), ' ', high(longint), ' ', high(int64), ' ', high(word));
end.
