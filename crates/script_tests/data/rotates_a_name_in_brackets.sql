:rotate [t] t2
