:rotate t t2
:rotate t Table
