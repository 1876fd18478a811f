\echo Use "CREATE EXTENSION mls" \quit

GRANT USAGE ON SCHEMA mls TO public;

-- The name of a container, an object of the monitor. A name survives a dump, and a new journal, in which objects have
-- other numbers.
CREATE DOMAIN mls.label AS text COLLATE "C" CHECK (VALUE ~ '^[A-Za-z0-9_-]{1,32}$');

-- What policies call. They act: an access is asked for, so they are volatile; the worker of a parallel query has no
-- connection of its own. The cost makes the planner try leakproof conditions of the query first, so that fewer
-- containers are touched.
CREATE FUNCTION mls.may_read(text) RETURNS bool AS 'MODULE_PATHNAME', 'mls_may_read'
  LANGUAGE C STRICT VOLATILE PARALLEL RESTRICTED COST 100;
CREATE FUNCTION mls.may_write(text) RETURNS bool AS 'MODULE_PATHNAME', 'mls_may_write'
  LANGUAGE C STRICT VOLATILE PARALLEL RESTRICTED COST 100;
CREATE FUNCTION mls.must_append(text) RETURNS bool AS 'MODULE_PATHNAME', 'mls_must_append'
  LANGUAGE C STRICT VOLATILE PARALLEL RESTRICTED COST 100;
CREATE FUNCTION mls.must_write(text) RETURNS bool AS 'MODULE_PATHNAME', 'mls_must_write'
  LANGUAGE C STRICT VOLATILE PARALLEL RESTRICTED COST 100;

-- Changes the level at which the session works: mls.level('S:A').
CREATE FUNCTION mls.level(text) RETURNS text AS 'MODULE_PATHNAME', 'mls_level'
  LANGUAGE C STRICT VOLATILE PARALLEL RESTRICTED;
-- What this transaction holds; the name that the session asks as; the number of its session at mlsd.
CREATE FUNCTION mls.held() RETURNS text AS 'MODULE_PATHNAME', 'mls_held' LANGUAGE C VOLATILE PARALLEL RESTRICTED;
CREATE FUNCTION mls.subject() RETURNS text AS 'MODULE_PATHNAME', 'mls_subject' LANGUAGE C VOLATILE PARALLEL RESTRICTED;
CREATE FUNCTION mls.session() RETURNS bigint AS 'MODULE_PATHNAME', 'mls_session'
  LANGUAGE C VOLATILE PARALLEL RESTRICTED;
-- (the number counts the sessions of all)
REVOKE EXECUTE ON FUNCTION mls.session() FROM public;

-- Whether row security is on and forced, with policies for all roles that call the functions above on the column
-- `label`.
CREATE FUNCTION mls.is_protected(regclass) RETURNS bool AS 'MODULE_PATHNAME', 'mls_is_protected'
  LANGUAGE C STRICT STABLE PARALLEL RESTRICTED;

-- (each names pg_temp last: a session's own tables would else be found before the catalogs)

-- Protects one table. The policies that decide are restrictive: no other policy opens what they close. As row security
-- shows nothing without a permissive policy, there is one that permits all; a table with policies of its own drops it.
CREATE PROCEDURE mls.protect_one(t regclass) LANGUAGE plpgsql SET search_path = pg_catalog, pg_temp AS $$
BEGIN
  EXECUTE format('ALTER TABLE %s ALTER label SET NOT NULL, ENABLE ROW LEVEL SECURITY, FORCE ROW LEVEL SECURITY', t);
  EXECUTE format('CREATE POLICY mls_open ON %s USING (true)', t);
  EXECUTE format('CREATE POLICY mls_read ON %s AS RESTRICTIVE FOR SELECT USING (mls.may_read(label))', t);
  EXECUTE format('CREATE POLICY mls_append ON %s AS RESTRICTIVE FOR INSERT WITH CHECK (mls.must_append(label))', t);
  EXECUTE format('CREATE POLICY mls_write ON %s AS RESTRICTIVE FOR UPDATE '
                 'USING (mls.may_write(label)) WITH CHECK (mls.must_write(label))', t);
  EXECUTE format('CREATE POLICY mls_delete ON %s AS RESTRICTIVE FOR DELETE USING (mls.may_write(label))', t);
  IF NOT mls.is_protected(t) THEN
    RAISE EXCEPTION 'mls: the column label of % is to be of the type mls.label, or text', t
      USING HINT = 'Its collation is to tell all texts apart.';
  END IF;
END $$;

-- Whether a constraint is no foreign key of a protected table, or one from its label to the label of another.
CREATE FUNCTION mls.is_kept_key(oid) RETURNS bool AS 'MODULE_PATHNAME', 'mls_is_kept_key'
  LANGUAGE C STRICT STABLE PARALLEL RESTRICTED;

-- What a table's indexes, statistics and types call: functions also that stand behind operators, casts to domains, and
-- ranges, which ANALYZE measures.
CREATE FUNCTION mls.functions_over(t regclass) RETURNS TABLE (f regprocedure)
LANGUAGE sql STABLE SET search_path = pg_catalog, pg_temp AS $$
  WITH RECURSIVE used AS (
    SELECT d.refclassid AS class, d.refobjid AS id FROM pg_depend d
      WHERE d.classid = 'pg_class'::regclass AND d.objid IN (SELECT indexrelid FROM pg_index WHERE indrelid = t)
        OR d.classid = 'pg_statistic_ext'::regclass AND d.objid IN (SELECT s.oid FROM pg_statistic_ext s
          WHERE s.stxrelid = t)
    UNION SELECT 'pg_type'::regclass, a.atttypid FROM pg_attribute a WHERE a.attrelid = t AND a.attnum > 0
    UNION SELECT more.* FROM used u CROSS JOIN LATERAL (
      SELECT d.refclassid, d.refobjid FROM pg_depend d WHERE d.classid = u.class AND d.objid = u.id
        AND u.class IN ('pg_proc'::regclass, 'pg_operator'::regclass, 'pg_type'::regclass, 'pg_constraint'::regclass)
      UNION ALL SELECT 'pg_constraint'::regclass, k.oid FROM pg_constraint k
        WHERE u.class = 'pg_type'::regclass AND k.contypid = u.id
      UNION ALL SELECT 'pg_type'::regclass, a.atttypid FROM pg_type y JOIN pg_attribute a ON a.attrelid = y.typrelid
        WHERE u.class = 'pg_type'::regclass AND y.oid = u.id AND a.attnum > 0) more)
  SELECT id::regprocedure FROM used WHERE class = 'pg_proc'::regclass
$$;

-- What of a protected table reads or locks rows beside its policies.
CREATE FUNCTION mls.faults(t regclass) RETURNS TABLE (finding text, name text, remedy text)
LANGUAGE sql STABLE SET search_path = pg_catalog, pg_temp AS $$
  SELECT 'foreign key that tells', k.conname || ' on ' || k.conrelid::regclass,
      'drop it, or put label into both sides, and protect both tables'
    FROM pg_constraint k WHERE k.contype = 'f' AND t IN (k.conrelid, k.confrelid) AND NOT mls.is_kept_key(k.oid)
  UNION ALL SELECT 'table without protection above it', t || ' below ' || i.inhparent::regclass,
      'CALL mls.protect of that table, or ALTER TABLE .. NO INHERIT'
    FROM pg_inherits i WHERE i.inhrelid = t AND NOT mls.is_protected(i.inhparent)
  UNION ALL SELECT 'table without protection below it', i.inhrelid::regclass || ' below ' || t,
      'CALL mls.protect of both, or ALTER TABLE .. NO INHERIT or DETACH PARTITION'
    FROM pg_inherits i WHERE i.inhparent = t AND NOT mls.is_protected(i.inhrelid)
  UNION ALL SELECT 'policy that is asked first', p.polname || ' on ' || t, 'ALTER POLICY .. RENAME TO own_..'
    FROM pg_policy p
    WHERE p.polrelid = t AND NOT p.polpermissive AND p.polname COLLATE "C" < 'mls_write'
      AND p.polname NOT IN ('mls_read', 'mls_append', 'mls_delete')
  UNION ALL SELECT DISTINCT 'function over hidden rows', f.oid::regprocedure || ' on ' || t,
      'ALTER FUNCTION .. OWNER TO a superuser, or drop the index, the statistics or the column'
    FROM mls.functions_over(t) over JOIN pg_proc f ON f.oid = over.f JOIN pg_roles o ON o.oid = f.proowner
    WHERE NOT o.rolsuper
$$;

-- Protects tables that have a column `label`, and all that stand below them: their partitions and heirs. Tables that
-- foreign keys join are named in one call.
CREATE PROCEDURE mls.protect(VARIADIC t regclass[]) LANGUAGE plpgsql SET search_path = pg_catalog, pg_temp AS $$
DECLARE
  one regclass;
  fault record;
BEGIN
  FOR one IN
    WITH RECURSIVE below AS (
      SELECT unnest(t)::oid AS id UNION SELECT inhrelid FROM pg_inherits JOIN below ON inhparent = id)
    SELECT id FROM below
  LOOP
    IF NOT mls.is_protected(one) THEN
      CALL mls.protect_one(one);
    END IF;
    t := t || one;
  END LOOP;
  FOREACH one IN ARRAY t LOOP
    SELECT * INTO fault FROM mls.faults(one);
    IF FOUND THEN
      RAISE EXCEPTION 'mls: %: %', fault.finding, fault.name USING HINT = fault.remedy;
    END IF;
  END LOOP;
END $$;

-- What goes round the policies, or tells what they hide: each with what an administrator does about it.
CREATE FUNCTION mls.audit() RETURNS TABLE (finding text, name text, remedy text)
LANGUAGE sql STABLE SET search_path = pg_catalog, pg_temp AS $$
  WITH relation AS (
    SELECT c.oid, c.relkind, c.reloptions, c.relowner, c.oid::regclass::text AS name
    FROM pg_class c JOIN pg_namespace n ON n.oid = c.relnamespace
    WHERE n.nspname !~ '^pg_' AND n.nspname NOT IN ('information_schema', 'mls'))
  SELECT 'table without protection', r.name, 'CALL mls.protect, or keep in it only what all may see'
    FROM relation r WHERE r.relkind IN ('r', 'p') AND NOT mls.is_protected(r.oid)
  UNION ALL SELECT 'materialized view', r.name, 'drop it: its rows have no labels'
    FROM relation r WHERE r.relkind = 'm'
  UNION ALL SELECT 'foreign table', r.name, 'drop it, or keep in it only what all may see'
    FROM relation r WHERE r.relkind = 'f'
  UNION ALL SELECT 'view without security_invoker', r.name, 'ALTER VIEW .. SET (security_invoker)'
    FROM relation r
    WHERE r.relkind = 'v' AND NOT EXISTS (SELECT FROM pg_options_to_table(r.reloptions) o
      WHERE o.option_name = 'security_invoker' AND o.option_value::bool)
  UNION ALL SELECT 'key that tells', i.indexrelid::regclass || ' on ' || r.name, 'put the column label into the key'
    FROM relation r JOIN pg_index i ON i.indrelid = r.oid
    WHERE (i.indisunique OR i.indisexclusion) AND mls.is_protected(r.oid)
      AND NOT EXISTS (SELECT FROM pg_attribute a, generate_series(1, i.indnkeyatts) k
        WHERE a.attrelid = r.oid AND a.attname = 'label' AND a.attnum = i.indkey[k - 1] AND (NOT i.indisexclusion
          OR EXISTS (SELECT FROM pg_constraint c JOIN pg_operator q ON q.oid = c.conexclop[k]
            WHERE c.conindid = i.indexrelid AND c.contype = 'x' AND q.oprcode = 'texteq'::regproc)))
  UNION ALL SELECT DISTINCT f.* FROM relation r, mls.faults(r.oid) f
    WHERE r.relkind IN ('r', 'p') AND mls.is_protected(r.oid)
  UNION ALL SELECT 'leakproof function', p.oid::regprocedure::text, 'ALTER FUNCTION .. NOT LEAKPROOF'
    FROM pg_proc p WHERE p.proleakproof AND p.oid >= 16384
  UNION ALL SELECT 'role with BYPASSRLS', r.rolname, 'ALTER ROLE .. NOBYPASSRLS'
    FROM pg_roles r WHERE r.rolbypassrls AND NOT r.rolsuper
  UNION ALL SELECT 'superuser', r.rolname, 'ALTER ROLE .. NOSUPERUSER, or NOLOGIN'
    FROM pg_roles r WHERE r.rolsuper AND r.rolcanlogin AND r.oid <> 10
  UNION ALL SELECT 'role that replicates', r.rolname, 'ALTER ROLE .. NOREPLICATION: the log has all rows'
    FROM pg_roles r WHERE r.rolreplication AND NOT r.rolsuper
  UNION ALL SELECT 'role with ' || g.rolname, r.rolname, 'REVOKE ' || g.rolname || ' FROM it'
    FROM pg_auth_members m JOIN pg_roles r ON r.oid = m.member JOIN pg_roles g ON g.oid = m.roleid
    WHERE g.rolname ~ '^pg_' AND r.rolname !~ '^pg_'
  UNION ALL SELECT 'role that can become the owner', r.rolname || ': ' || o.rolname,
      format('REVOKE %I FROM %I', o.rolname, r.rolname)
    FROM pg_roles r JOIN pg_roles o ON o.oid <> r.oid AND pg_has_role(r.oid, o.oid, 'MEMBER')
    WHERE r.rolcanlogin AND NOT r.rolsuper AND NOT o.rolsuper
      AND o.oid IN (SELECT relowner FROM relation WHERE relkind IN ('r', 'p') AND mls.is_protected(relation.oid))
  UNION ALL SELECT 'role that can become a superuser', r.rolname || ': ' || o.rolname,
      format('REVOKE %I FROM %I', o.rolname, r.rolname)
    FROM pg_roles r JOIN pg_roles o ON o.oid <> r.oid AND pg_has_role(r.oid, o.oid, 'MEMBER')
    WHERE r.rolcanlogin AND NOT r.rolsuper AND (o.rolsuper OR o.rolbypassrls)
  UNION ALL SELECT 'role with CREATEROLE', r.rolname, 'ALTER ROLE .. NOCREATEROLE: it can become any owner, and more'
    FROM pg_roles r WHERE r.rolcreaterole AND NOT r.rolsuper
  UNION ALL SELECT 'role with CREATEDB', r.rolname, 'ALTER ROLE .. NOCREATEDB: nothing is asked in its databases'
    FROM pg_roles r WHERE r.rolcreatedb AND NOT r.rolsuper
  UNION ALL SELECT 'owner that logs in', r.name || ': ' || o.rolname, 'ALTER TABLE .. OWNER TO a role with NOLOGIN'
    FROM relation r JOIN pg_roles o ON o.oid = r.relowner
    WHERE r.relkind IN ('r', 'p') AND o.rolcanlogin AND NOT o.rolsuper AND mls.is_protected(r.oid)
  UNION ALL SELECT 'function that runs as a superuser', p.oid::regprocedure::text, 'ALTER FUNCTION .. SECURITY INVOKER'
    FROM pg_proc p JOIN pg_roles o ON o.oid = p.proowner
    WHERE p.prosecdef AND p.oid >= 16384 AND (o.rolsuper OR o.rolbypassrls)
  UNION ALL SELECT 'trigger that runs as a superuser', t.tgname || ' on ' || r.name,
      'ALTER FUNCTION .. OWNER TO a superuser, or DROP TRIGGER'
    FROM pg_trigger t JOIN relation r ON r.oid = t.tgrelid JOIN pg_roles o ON o.oid = r.relowner
      JOIN pg_proc p ON p.oid = t.tgfoid JOIN pg_roles f ON f.oid = p.proowner
    WHERE NOT t.tgisinternal AND (o.rolsuper OR o.rolbypassrls) AND NOT f.rolsuper
  UNION ALL SELECT 'other extension', e.extname, 'DROP EXTENSION, unless nothing of it reads or leaves rows elsewhere'
    FROM pg_extension e WHERE e.extname NOT IN ('mls', 'plpgsql')
  UNION ALL SELECT 'activity that others see', 'track_activities', 'ALTER SYSTEM SET track_activities = off'
    WHERE current_setting('track_activities')::bool
  UNION ALL SELECT 'function that tells', p.oid::regprocedure::text,
      'REVOKE EXECUTE ON FUNCTION ' || p.oid::regprocedure || ' FROM public'
    FROM pg_proc p
    WHERE has_function_privilege('public', p.oid, 'EXECUTE')
      AND (p.oid = 'mls.session()'::regprocedure OR p.pronamespace = 'pg_catalog'::regnamespace
        AND (p.proname ~ '^pg_stat_(get|have)_' OR p.proname IN (
          'pg_lock_status', 'pg_blocking_pids', 'pg_safe_snapshot_blocking_pids',
          'pg_isolation_test_session_is_blocked', 'pg_prepared_xact', 'pg_sequence_last_value',
          'pg_notification_queue_usage', 'pg_get_replication_slots', 'pg_xact_status', 'txid_status',
          'pg_current_snapshot', 'txid_current_snapshot', 'pg_get_multixact_members', 'pg_current_wal_lsn',
          'pg_current_wal_insert_lsn', 'pg_current_wal_flush_lsn', 'pg_control_checkpoint', 'pg_control_system',
          'pg_control_recovery', 'pg_relation_size', 'pg_table_size', 'pg_indexes_size', 'pg_total_relation_size',
          'pg_database_size', 'pg_tablespace_size', 'pg_last_committed_xact', 'pg_xact_commit_timestamp',
          'pg_xact_commit_timestamp_origin', 'currtid2', 'gin_clean_pending_list', 'brin_summarize_new_values',
          'brin_summarize_range', 'pg_logical_emit_message', 'pg_last_wal_replay_lsn', 'pg_last_wal_receive_lsn',
          'pg_last_xact_replay_timestamp')))
  UNION ALL SELECT 'other database', d.datname, format('REVOKE CONNECT ON DATABASE %I FROM public', d.datname)
    FROM pg_database d
    WHERE d.datallowconn AND d.datname <> current_database() AND has_database_privilege('public', d.oid, 'CONNECT')
  UNION ALL SELECT 'setting that opens', s.name, 'ALTER SYSTEM RESET ' || s.name
    FROM pg_settings s
    WHERE s.name IN ('mls.append_up', 'mls.nextval_up', 'mls.explain', 'mls.statistics', 'mls.parallel')
      AND s.reset_val = 'on' OR s.name = 'default_transaction_isolation' AND s.reset_val = 'serializable'
  UNION ALL SELECT 'setting that opens',
      o.text || coalesce(' of ' || r.rolname, '') || coalesce(' in ' || d.datname, ''),
      'ALTER ROLE or DATABASE .. RESET ' || split_part(o.text, '=', 1)
    FROM pg_db_role_setting s CROSS JOIN unnest(s.setconfig) o(text) LEFT JOIN pg_roles r ON r.oid = s.setrole
      LEFT JOIN pg_database d ON d.oid = s.setdatabase
    WHERE o.text ~ '^mls[.](append_up|nextval_up|explain|statistics|parallel)='
      OR o.text = 'default_transaction_isolation=serializable'
  UNION ALL SELECT 'parameter that a role may set', p.parname || ': ' || coalesce(r.rolname, 'public'),
      format('REVOKE %s ON PARAMETER %s FROM %s', a.privilege_type, p.parname,
        coalesce(quote_ident(r.rolname), 'public'))
    FROM pg_parameter_acl p CROSS JOIN aclexplode(p.paracl) a LEFT JOIN pg_roles r ON r.oid = a.grantee
    WHERE r.rolsuper IS NOT TRUE
  UNION ALL SELECT 'setting that tells', s.name, format('ALTER SYSTEM SET %s = off', s.name)
    FROM pg_settings s WHERE s.name = 'synchronize_seqscans' AND s.reset_val = 'on'
  UNION ALL SELECT 'rule that runs as a superuser', w.rulename || ' on ' || r.name, 'DROP RULE, or another owner'
    FROM pg_rewrite w JOIN relation r ON r.oid = w.ev_class JOIN pg_roles o ON o.oid = r.relowner
    WHERE w.rulename <> '_RETURN' AND (o.rolsuper OR o.rolbypassrls)
  UNION ALL SELECT 'publication', p.pubname, 'DROP PUBLICATION: it sends rows of all labels' FROM pg_publication p
  ORDER BY 1, 2
$$;
