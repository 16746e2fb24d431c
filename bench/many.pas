{ takes some hundred modules of the libraries of the units }
program many;
uses sysutils, math, dos, strings;
var
  line: string;
  number: double;
begin
  line := Format('%d %s %f', [3, 'abc', 2.5]);
  writeln(line, ' ', FloatToStr(power(2.0, 0.5)), ' ', DateTimeToStr(Now));
  writeln(UpperCase(line), Trim(line), IntToHex(255, 4), StrToIntDef('12', 0));
  number := arctan2(1.0, 2.0) + log10(100.0) + sinh(1.0);
  writeln(number:8:3);
end.
