@echo off
rem Copies the programs from this folder to another: INSTALL C:\DOSLINK
if "%1"=="" goto usage
if not exist OMF.EXE goto usage
if not exist %1\NUL md %1
copy OMF.EXE %1
copy DOSLINK.EXE %1
if exist DOSLIB.EXE copy DOSLIB.EXE %1
rem DOSLINK by the names of other linkers, in a folder of their own
if not exist %1\LINKERS\NUL md %1\LINKERS
copy DOSLINK.EXE %1\LINKERS\LINK.EXE
copy DOSLINK.EXE %1\LINKERS\TLINK.EXE
copy DOSLINK.EXE %1\LINKERS\WLINK.EXE
goto end
:usage
echo usage, in the folder that has OMF.EXE: INSTALL FOLDER
:end
