-- The functions of pcidr.so, whose path is the variable `library` of psql: both, or none after an error.
BEGIN;
CREATE FUNCTION pcidr_lookup(file text, address inet) RETURNS text
    AS :'library', 'sql_lookup' LANGUAGE C STABLE STRICT PARALLEL SAFE;
CREATE FUNCTION pcidr_contains(file text, address inet) RETURNS boolean
    AS :'library', 'sql_contains' LANGUAGE C STABLE STRICT PARALLEL SAFE;
-- They read any file that the server may read.
REVOKE EXECUTE ON FUNCTION pcidr_lookup(text, inet), pcidr_contains(text, inet) FROM PUBLIC;
COMMIT;
