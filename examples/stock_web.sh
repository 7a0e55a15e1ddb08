# An Apache with mod_auth_gssapi on 127.0.0.1, for scripts of this folder that have read stock.sh.
PATH=$PATH:/usr/sbin
apache=$(command -v apache2 || command -v httpd || echo apache2)
modules=$(dirname "$(find /usr/lib /usr/lib64 -name mod_auth_gssapi.so 2>/dev/null | head -n 1)")

# Started by root, Apache serves as nobody.
web_user=$(id -un) own_user=
if [ "$(id -u)" -eq 0 ]; then
    web_user=nobody own_user="User nobody
Group #$(id -g nobody)"
fi

need_web() {
    need "$apache" apache2
    need curl curl
    if [ ! -e "$modules/mod_auth_gssapi.so" ]; then
        echo "$script: mod_auth_gssapi is missing (Debian: libapache2-mod-auth-gssapi)" >&2
        missing=1
    fi
}

# start_web CONFIGURATION: the web server, which opens its keytab for each login; sets web and web_port.
start_web() {
    mkdir "$work/pages" "$work/web_replays"
    chmod 711 "$work"
    chmod 755 "$work/pages"
    chown "$web_user" "$work/web_replays"
    echo "a page for users" >"$work/pages/index.html"
    chmod 644 "$work/pages/index.html"
    {
        for module in mpm_prefork unixd log_config authn_core authz_core authz_user dir auth_gssapi; do
            echo "<IfModule !${module}_module>"
            echo "LoadModule ${module}_module $modules/mod_$module.so"
            echo "</IfModule>"
        done
        cat <<CONF
$own_user
StartServers 1
ServerName $host
PidFile $work/pid
DefaultRuntimeDir $work
Mutex file:$work
ErrorLog $work/errors
LogFormat "%u %>s" short
CustomLog $work/requests short
DocumentRoot $work/pages
DirectoryIndex index.html
<Directory $work/pages>
    AuthType GSSAPI
    AuthName "the realm"
    GssapiCredStore keytab:$work/web.keytab
    GssapiAllowedMech krb5
    Require valid-user
</Directory>
CONF
    } >"$work/web.conf"
    web_environment="KRB5RCACHEDIR=$work/web_replays KRB5_CONFIG=$1 TZ=UTC"
    env $web_environment "$apache" -t -f "$work/web.conf" -c "Listen 127.0.0.1:8799" >"$work/said" 2>&1 || { cat "$work/said" >&2 && exit 2; }
    # At its end Apache signals its process group, and with it the script: so it has a session of its own.
    listen setsid env $web_environment "$apache" -DFOREGROUND -f "$work/web.conf" -c "Listen 127.0.0.1:PORT"
    web=$started web_port=$port
}
