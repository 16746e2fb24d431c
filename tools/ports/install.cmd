@echo off
rem Copies the programs, the documents and the folder linkers: install.cmd FOLDER
if "%~1"=="" goto usage
xcopy /e /i /q /y "%~dp0*" "%~1"
if errorlevel 1 exit /b 3
echo The programs are in %~1. They are found by their names once that folder is on the PATH.
exit /b 0

:usage
echo usage: install.cmd FOLDER
exit /b 2
