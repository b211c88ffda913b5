:sesion 2
CREATE TABLE t (a INT)
