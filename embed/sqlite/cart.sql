-- Two replicas of a shopping cart in a table: each does something, they exchange their states, and both answer alike.
--     sqlite3 -cmd '.load OUT/sqlite/katara' -cmd '.parameter set @type TYPE' .. <cart.sql, as `check` does
create table design (name text primary key, type blob not null, design blob not null);
create table replica (number integer primary key check (number between 1 and 32), state text not null);
insert into design values ('cart', readfile(@type), readfile(@design));
create view cart as select type, design from design where name = 'cart';
insert into replica select column1, katara_new(type, design, column1) from cart, (values (1), (2));
update replica set state = katara_do(type, design, state, 'add', 'milk', 2) from cart where number = 1;
update replica set state = katara_do(type, design, state, 'add', 'milk', 3) from cart where number = 2;
update replica set state = katara_do(type, design, state, 'add "eggs" 12') from cart where number = 2;
-- twice, which makes no difference
update replica set state = katara_merge(type, design, state, (select state from replica where number = 2)) from cart where number = 1;
update replica set state = katara_merge(type, design, state, (select state from replica where number = 2)) from cart where number = 1;
select 'count "milk" = ' || katara_ask(type, design, state, 'count', 'milk') from cart, replica where number = 1;
select 'count "eggs" = ' || katara_ask(type, design, katara_merge(type, design, state), 'count "eggs"') from cart, replica;
