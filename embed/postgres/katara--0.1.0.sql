-- Replicas of designs whose proof was accepted. Each function's answer depends on its arguments alone.
\echo Use "CREATE EXTENSION katara" to load this file. \quit

CREATE FUNCTION katara_version() RETURNS text
    AS 'MODULE_PATHNAME', 'sql_katara_version' LANGUAGE C STRICT IMMUTABLE PARALLEL SAFE;

CREATE FUNCTION katara_new(type text, design text, number integer) RETURNS text
    AS 'MODULE_PATHNAME', 'sql_katara_new' LANGUAGE C STRICT IMMUTABLE PARALLEL SAFE COST 1000;

-- by a text, as a script has it
CREATE FUNCTION katara_do(type text, design text, state text, call text) RETURNS text
    AS 'MODULE_PATHNAME', 'sql_katara_do' LANGUAGE C STRICT IMMUTABLE PARALLEL SAFE COST 100;
CREATE FUNCTION katara_ask(type text, design text, state text, call text) RETURNS text
    AS 'MODULE_PATHNAME', 'sql_katara_ask' LANGUAGE C STRICT IMMUTABLE PARALLEL SAFE COST 100;

-- by a name and values
CREATE FUNCTION katara_do(type text, design text, state text, name text, VARIADIC "values" "any") RETURNS text
    AS 'MODULE_PATHNAME', 'sql_katara_do' LANGUAGE C STRICT IMMUTABLE PARALLEL SAFE COST 100;
CREATE FUNCTION katara_ask(type text, design text, state text, name text, VARIADIC "values" "any") RETURNS text
    AS 'MODULE_PATHNAME', 'sql_katara_ask' LANGUAGE C STRICT IMMUTABLE PARALLEL SAFE COST 100;

CREATE FUNCTION katara_merge(type text, design text, state text, other text) RETURNS text
    AS 'MODULE_PATHNAME', 'sql_katara_merge' LANGUAGE C STRICT IMMUTABLE PARALLEL SAFE COST 100;

CREATE FUNCTION katara_merge_step(internal, text, text, text) RETURNS internal
    AS 'MODULE_PATHNAME', 'sql_katara_merge_step' LANGUAGE C IMMUTABLE PARALLEL SAFE COST 100;
CREATE FUNCTION katara_merge_end(internal) RETURNS text
    AS 'MODULE_PATHNAME', 'sql_katara_merge_end' LANGUAGE C IMMUTABLE PARALLEL SAFE COST 100;
CREATE FUNCTION katara_merge_combine(internal, internal) RETURNS internal
    AS 'MODULE_PATHNAME', 'sql_katara_merge_combine' LANGUAGE C IMMUTABLE PARALLEL SAFE COST 100;
CREATE FUNCTION katara_merge_serialize(internal) RETURNS bytea
    AS 'MODULE_PATHNAME', 'sql_katara_merge_serialize' LANGUAGE C STRICT IMMUTABLE PARALLEL SAFE COST 100;
CREATE FUNCTION katara_merge_deserialize(bytea, internal) RETURNS internal
    AS 'MODULE_PATHNAME', 'sql_katara_merge_deserialize' LANGUAGE C STRICT IMMUTABLE PARALLEL SAFE COST 100;

CREATE AGGREGATE katara_merge(type text, design text, state text) (
    sfunc = katara_merge_step,
    stype = internal,
    finalfunc = katara_merge_end,
    combinefunc = katara_merge_combine,
    serialfunc = katara_merge_serialize,
    deserialfunc = katara_merge_deserialize,
    parallel = safe
);
