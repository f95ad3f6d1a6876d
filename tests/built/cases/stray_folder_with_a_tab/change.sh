# A folder whose name is none of the program, with a tab.
mkdir d/$'a\tb'
