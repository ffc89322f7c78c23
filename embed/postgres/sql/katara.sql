-- The functions of the extension, with a cart and with flags.
\set VERBOSITY terse
CREATE EXTENSION katara;
SELECT katara_version() ~ '^[0-9]+[.][0-9]+[.][0-9]+$' AS is_a_version;
\set type `cat cart.type`
\set design `cat cart.design`
CREATE TABLE design (name text PRIMARY KEY, type text NOT NULL, design text NOT NULL);
INSERT INTO design VALUES ('cart', :'type', :'design');
\set type `cat feature_flags.type`
\set design `cat feature_flags.design`
INSERT INTO design VALUES ('flags', :'type', :'design');
CREATE TABLE replica (kind text REFERENCES design, number integer, state text NOT NULL, PRIMARY KEY (kind, number));
CREATE VIEW opened AS SELECT kind, number, type, design, state FROM replica JOIN design ON kind = name;
INSERT INTO replica SELECT 'cart', n, katara_new(type, design, n) FROM design, generate_series(1, 32) n WHERE name = 'cart';
INSERT INTO replica SELECT 'flags', n, katara_new(type, design, n) FROM design, generate_series(1, 2) n WHERE name = 'flags';
SELECT number, state FROM replica WHERE kind = 'cart' AND number IN (1, 32) ORDER BY number;

-- operations by a text and by values
UPDATE replica r SET state = katara_do(o.type, o.design, o.state, 'add', 'milk', o.number) FROM opened o WHERE o.kind = 'cart' AND (r.kind, r.number) = (o.kind, o.number);
UPDATE replica r SET state = katara_do(o.type, o.design, o.state, 'add "eggs" 12') FROM opened o WHERE o.kind = 'cart' AND o.number = 2 AND (r.kind, r.number) = (o.kind, o.number);
UPDATE replica r SET state = katara_do(o.type, o.design, o.state, 'switch', 'dark'::text, o.number = 2) FROM opened o WHERE o.kind = 'flags' AND (r.kind, r.number) = (o.kind, o.number);
SELECT state FROM replica WHERE kind = 'cart' AND number = 2;
SELECT katara_ask(type, design, state, 'count', 'milk'), katara_ask(type, design, state, 'count "eggs"')::bigint + 1 FROM opened WHERE kind = 'cart' AND number = 2;
SELECT number, katara_ask(type, design, state, 'enabled', 'dark'), katara_ask(type, design, state, 'enabled "dark"')::boolean FROM opened WHERE kind = 'flags' ORDER BY number;
-- a value of a domain
CREATE DOMAIN amount AS integer CHECK (VALUE > 0);
SELECT katara_do(type, design, state, 'add', 'milk', 3::amount) = katara_do(type, design, state, 'add', 'milk', 3) AS same FROM opened WHERE kind = 'cart' AND number = 2;

-- merges
SELECT katara_ask(type, design, katara_merge(type, design, state, (SELECT state FROM replica WHERE kind = 'cart' AND number = 2)), 'count', 'eggs') FROM opened WHERE kind = 'cart' AND number = 1;
SELECT kind, katara_ask(type, design, merged, CASE kind WHEN 'cart' THEN 'count "milk"' ELSE 'enabled "dark"' END)
    FROM (SELECT kind, type, design, katara_merge(type, design, state ORDER BY number DESC) AS merged FROM opened GROUP BY 1, 2, 3) m ORDER BY kind;
SELECT count(DISTINCT merged) FROM (
    SELECT katara_merge(type, design, state ORDER BY number) AS merged FROM opened WHERE kind = 'cart'
    UNION ALL SELECT katara_merge(type, design, state ORDER BY number DESC) FROM opened WHERE kind = 'cart'
    UNION ALL SELECT katara_merge(type, design, ' ' || state ORDER BY number % 7) FROM opened WHERE kind = 'cart'
    UNION ALL SELECT katara_merge(type, design, state ORDER BY number * 5 % 31) FROM (TABLE opened UNION ALL TABLE opened) twice WHERE kind = 'cart') m;
-- many groups at once, by hashing, which share the replica that merges
SET enable_sort = off;
SELECT count(*), min(length(merged)), max(length(merged)) FROM (
    SELECT n % 100, katara_merge(type, design, state) AS merged FROM opened, generate_series(1, 300) n WHERE kind = 'cart' AND number <= 3 GROUP BY 1) m;
RESET enable_sort;
-- an aggregate over what the aggregate gives, and over what the functions give
SELECT katara_ask(type, design, katara_merge(type, design, merged), 'count', 'milk') FROM (
    SELECT type, design, number % 4, katara_merge(type, design, katara_do(type, design, state, 'add', 'milk', 1)) AS merged FROM opened WHERE kind = 'cart' GROUP BY 1, 2, 3) m GROUP BY type, design;
SELECT katara_merge(type, design, state) IS NULL FROM opened WHERE number > 32;
SELECT katara_merge(type, design, NULL) IS NULL, katara_merge(type, design, CASE number WHEN 1 THEN state END) = min(state) FILTER (WHERE number = 1) FROM opened WHERE kind = 'cart' GROUP BY type, design;

-- keys, also of a share
CREATE TABLE shared (kind text REFERENCES design, number integer, share text NOT NULL, PRIMARY KEY (kind, number));
CREATE VIEW sharing AS SELECT kind, number, type, design, share FROM shared JOIN design ON kind = name;
INSERT INTO shared SELECT 'cart', n, katara_new_share(type, design, n) FROM design, generate_series(1, 3) n WHERE name = 'cart';
UPDATE shared r SET share = katara_do(o.type, o.design, o.share, 'add', 'milk', o.number) FROM sharing o WHERE (r.kind, r.number) = (o.kind, o.number);
SELECT katara_keys(type, design, state, 'count'), katara_keys_beyond(type, design, state, 'count', (SELECT state FROM replica WHERE kind = 'cart' AND number = 1)) FROM opened WHERE kind = 'cart' AND number = 2;
SELECT key, katara_ask(type, design, share, 'count', key) FROM sharing, jsonb_array_elements_text(katara_keys(type, design, share, 'count')::jsonb) key WHERE number = 3;
SELECT katara_marks(type, design, share), katara_state(type, design, share) FROM sharing ORDER BY number;
-- packets: of all, of what is new, and again
SELECT share AS known FROM shared WHERE number = 2 \gset
UPDATE shared SET share = katara_do(type, design, shared.share, 'add "eggs" 12') FROM design WHERE name = kind AND number = 2;
SELECT katara_difference(type, design, share) = katara_difference(type, design, share, '') AS same, katara_difference(type, design, share, :'known') AS packet FROM sharing WHERE number = 2 \gset
SELECT :'same', :'packet';
-- over a gap, which is told by a state of its own
SELECT katara_merge_difference(type, design, share, :'packet') FROM sharing WHERE number = 1;
\echo :SQLSTATE
UPDATE shared SET share = katara_merge_difference(type, design, shared.share, katara_difference(type, design, :'known')) FROM design WHERE name = kind AND number = 1;
UPDATE shared SET share = katara_merge_difference(type, design, shared.share, :'packet') FROM design WHERE name = kind AND number = 1;
UPDATE shared SET share = katara_merge_difference(type, design, shared.share, :'packet') FROM design WHERE name = kind AND number = 1;
SELECT share, katara_ask(type, design, share, 'count', 'eggs') FROM sharing WHERE number = 1;
-- what all have, as the state of their merged states
SELECT katara_ask(type, design, katara_merge(type, design, katara_state(type, design, share)), 'count', 'milk') FROM sharing GROUP BY type, design;

-- no state, no answer
SELECT katara_do(type, design, NULL, 'add', 'milk', 1) IS NULL, katara_ask(type, design, NULL, 'count "milk"') IS NULL, katara_merge(type, design, state, NULL) IS NULL, katara_do(type, design, state, 'add', NULL::text, 1) IS NULL FROM opened WHERE kind = 'cart' AND number = 1;

-- what is refused
CREATE VIEW one AS SELECT type, design, state FROM opened WHERE kind = 'cart' AND number = 2;
SELECT katara_new('', design, 1) FROM one;
SELECT katara_new(type, '[]', 1) FROM one;
SELECT katara_new(type, (SELECT design FROM design WHERE name = 'flags'), 1) FROM one;
SELECT katara_new(type, split_part(design, ',[["q"', 1) || ',[["q",0],["e",0,[0,0]],["t",0]],[],[]]', 1) FROM one;
SELECT katara_new(type, design, 0) FROM one;
SELECT katara_new(type, design, 33) FROM one;
SELECT katara_new(type || repeat('#', 16777216), design, 1) FROM one;
SELECT katara_do(type, design, '[]', 'add', 'milk', 1) FROM one;
SELECT katara_do(type, design, state || 'x', 'add', 'milk', 1) FROM one;
SELECT katara_do(type, design, repeat('[', 300), 'add "milk" 1') FROM one;
SELECT katara_do(type, design, state, '') FROM one;
SELECT katara_do(type, design, state, 'add "milk" 2 2') FROM one;
SELECT katara_do(type, design, state, 'add', 'milk" 1000000 #', 1) FROM one;
SELECT katara_do(type, design, state, 'add', 'milk', -1) FROM one;
SELECT katara_do(type, design, state, 'add', 'milk', true) FROM one;
SELECT katara_do(type, design, state, 'add', 'milk') FROM one;
SELECT katara_do(type, design, state, 'add', 'milk', 1, 2, 3, 4) FROM one;
SELECT katara_do(type, design, state, 'add', 'milk', 1.5) FROM one;
SELECT katara_do(type, design, state, 'add', VARIADIC ARRAY['milk', '1']) FROM one;
SELECT katara_do(type, design, replace(state, ',2,2,', ',2,1000000000,'), 'add', 'milk', 1) FROM one;
SELECT katara_ask(type, design, state, 'count') FROM one;
SELECT katara_ask(type, design, state, 'count', 1) FROM one;
SELECT katara_merge(type, design, state, '{}') FROM one;
SELECT katara_merge(type, design, s) FROM one, (VALUES ('["state",1,1,0,[[]]]'), ('["state",1,33,0,[[]]]')) v (s);
SELECT katara_merge(type, design, state) FROM opened;
SELECT katara_merge(NULL, design, state) FROM opened;
SELECT katara_keys(type, design, '[]', 'count') FROM one;
SELECT katara_keys(type, design, state, 'add') FROM one;
SELECT katara_keys_beyond(type, design, state, 'count', '') FROM one;
SELECT katara_keys_beyond(type, design, state, 'coun', state) FROM one;
SELECT katara_new_share(type, design, 0) FROM one;
SELECT katara_state(type, design, state) FROM one;
SELECT katara_marks(type, design, E'\n') FROM one;
SELECT katara_difference(type, design, state) FROM one;
\echo :SQLSTATE
SELECT katara_difference(type, design, share, 'x') FROM sharing WHERE number = 1;
SELECT katara_merge_difference(type, design, share, share) FROM sharing WHERE number = 1;
SELECT katara_merge_difference(type, design, share, '') FROM sharing WHERE number = 1;
SELECT katara_do(type, design, share || 'x', 'add "milk" 1') FROM sharing WHERE number = 1;
SELECT katara_merge(type, design, share, katara_state(type, design, share)) FROM sharing WHERE number = 1;
SELECT katara_merge(type, design, share) FROM sharing;
SELECT katara_merge_end(NULL);
SELECT katara_merge_step(NULL, type, design, state) FROM one;
-- after an error the same design goes on, in the same transaction too
BEGIN;
SAVEPOINT before;
SELECT katara_merge(type, design, s) FROM one, (SELECT state AS s FROM replica WHERE kind = 'cart' UNION ALL SELECT '[]') v;
ROLLBACK TO before;
SELECT katara_ask(type, design, katara_merge(type, design, state), 'count', 'milk') FROM opened WHERE kind = 'cart' GROUP BY type, design;
COMMIT;
-- an update that fails changes nothing
SELECT md5(string_agg(state, '' ORDER BY kind, number)) AS before FROM replica \gset
UPDATE replica r SET state = katara_do(o.type, o.design, o.state, 'add "milk" 1') FROM opened o WHERE (r.kind, r.number) = (o.kind, o.number);
SELECT md5(string_agg(state, '' ORDER BY kind, number)) = :'before' FROM replica;
-- in a generated column and an index
\set type `cat cart.type`
\set design `cat cart.design`
\set ECHO none
SELECT format('CREATE TABLE shown (state text NOT NULL, milk bigint GENERATED ALWAYS AS (katara_ask(%L, %L, state, ''count'', ''milk'')::bigint) STORED)', :'type', :'design') \gexec
\set ECHO all
INSERT INTO shown SELECT state FROM replica WHERE kind = 'cart' AND number < 4;
CREATE INDEX ON shown (milk);
SELECT milk FROM shown ORDER BY milk;
INSERT INTO shown VALUES ('x');
-- more designs than are kept, in turn
SELECT count(katara_ask(type || repeat(E'\n', n % 13), design, state, 'count', 'milk')) FROM one, generate_series(1, 60) n;
-- a gap in a function, which goes on by asking for more
CREATE FUNCTION took(type text, design text, share text, packet text) RETURNS text LANGUAGE plpgsql AS $$
BEGIN
    RETURN katara_merge_difference(type, design, share, packet);
EXCEPTION WHEN object_not_in_prerequisite_state THEN
    RETURN 'ask for more';
END $$;
SELECT number, length(took(type, design, share, :'packet')) FROM sharing WHERE number < 3 UNION ALL SELECT 0, length(took(type, design, katara_new_share(type, design, 4), :'packet')) FROM design WHERE name = 'cart' ORDER BY 1;
SELECT took(type, design, katara_new_share(type, design, 4), 'x') FROM design WHERE name = 'cart';
-- all functions may run in parallel workers
SELECT DISTINCT provolatile, proparallel FROM pg_proc WHERE proname LIKE 'katara%';
DROP TABLE shown;
-- an older version of what SQL sees, and its update
DROP EXTENSION katara;
CREATE EXTENSION katara VERSION '0.1.0';
SELECT count(katara_ask(type, design, state, 'count', 'milk')) FROM one;
SELECT katara_keys(type, design, state, 'count') FROM one;
ALTER EXTENSION katara UPDATE;
SELECT katara_keys(type, design, state, 'count') FROM one;
SELECT extversion FROM pg_extension WHERE extname = 'katara';
