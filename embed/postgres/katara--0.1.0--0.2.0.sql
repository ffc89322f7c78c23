-- The keys of what a replica has, and shares with their differences.
\echo Use "ALTER EXTENSION katara UPDATE" to load this file. \quit

-- keys, as a list in JSON
CREATE FUNCTION katara_keys(type text, design text, state text, query text) RETURNS text
    AS 'MODULE_PATHNAME', 'sql_katara_keys' LANGUAGE C STRICT IMMUTABLE PARALLEL SAFE COST 100;
CREATE FUNCTION katara_keys_beyond(type text, design text, state text, query text, known text) RETURNS text
    AS 'MODULE_PATHNAME', 'sql_katara_keys_beyond' LANGUAGE C STRICT IMMUTABLE PARALLEL SAFE COST 100;

-- a replica with its marks
CREATE FUNCTION katara_new_share(type text, design text, number integer) RETURNS text
    AS 'MODULE_PATHNAME', 'sql_katara_new_share' LANGUAGE C STRICT IMMUTABLE PARALLEL SAFE COST 100;
CREATE FUNCTION katara_state(type text, design text, share text) RETURNS text
    AS 'MODULE_PATHNAME', 'sql_katara_state' LANGUAGE C STRICT IMMUTABLE PARALLEL SAFE COST 100;
CREATE FUNCTION katara_marks(type text, design text, share text) RETURNS text
    AS 'MODULE_PATHNAME', 'sql_katara_marks' LANGUAGE C STRICT IMMUTABLE PARALLEL SAFE COST 100;

-- a packet of all that a share has, and of what it has beyond one that is known
CREATE FUNCTION katara_difference(type text, design text, share text) RETURNS text
    AS 'MODULE_PATHNAME', 'sql_katara_difference' LANGUAGE C STRICT IMMUTABLE PARALLEL SAFE COST 100;
CREATE FUNCTION katara_difference(type text, design text, share text, known text) RETURNS text
    AS 'MODULE_PATHNAME', 'sql_katara_difference' LANGUAGE C STRICT IMMUTABLE PARALLEL SAFE COST 100;
CREATE FUNCTION katara_merge_difference(type text, design text, share text, packet text) RETURNS text
    AS 'MODULE_PATHNAME', 'sql_katara_merge_difference' LANGUAGE C STRICT IMMUTABLE PARALLEL SAFE COST 100;
