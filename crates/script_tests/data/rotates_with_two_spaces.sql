 :rotate t t2 	
:rotate t  t2
