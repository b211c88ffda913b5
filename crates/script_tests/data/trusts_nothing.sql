:trust main
:trust 
