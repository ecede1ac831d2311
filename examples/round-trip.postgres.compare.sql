-- How many rows of the tables of the schemas public and back stand more often in one than in the other, and how many tables in one alone.
CREATE FUNCTION pg_temp.differences() RETURNS bigint LANGUAGE plpgsql AS $$
DECLARE found record; columns text; count bigint; sum bigint;
BEGIN
  SELECT count(*) INTO sum FROM (
    SELECT table_name FROM information_schema.tables WHERE table_schema IN ('public', 'back')
    GROUP BY table_name HAVING count(*) <> 2) alone;
  FOR found IN SELECT table_name AS name FROM information_schema.tables WHERE table_schema = 'public' LOOP
    SELECT string_agg(quote_ident(column_name), ', ') INTO columns FROM information_schema.columns
    WHERE table_schema = 'public' AND table_name = found.name;
    EXECUTE format('SELECT (SELECT count(*) FROM (SELECT %1$s FROM public.%2$I EXCEPT ALL SELECT %1$s FROM back.%2$I) a)
      + (SELECT count(*) FROM (SELECT %1$s FROM back.%2$I EXCEPT ALL SELECT %1$s FROM public.%2$I) b)', columns, found.name) INTO count;
    RAISE NOTICE '%: % rows differ', found.name, count;
    sum := sum + count;
  END LOOP;
  RETURN sum;
END $$;
SELECT pg_temp.differences();
